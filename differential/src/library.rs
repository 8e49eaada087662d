//! The port's exported functions. To C a lent slice is a pointer and a length; the functions here
//! lend slices, and hand a state's numbers over one by one.

/// What a call tells besides its state: document 01's number of the answer, its value, and the
/// device calls made.
#[derive(Clone, Copy, Debug)]
pub struct Told {
    pub number: u32,
    pub value: usize,
    pub calls: usize,
}

/// A writer's state.
#[derive(Clone, Copy, Debug, Default)]
pub struct Writer {
    pub held: usize,
    pub out: usize,
    pub used: usize,
}

/// A reader's state.
#[derive(Clone, Copy, Debug, Default)]
pub struct Reader {
    pub pos: usize,
    pub filled: usize,
    pub taken: usize,
    pub used: usize,
}

macro_rules! texts {
    ($($export:ident as $name:ident;)*) => {
        unsafe extern "C" {
            $(fn $export(input: *const u8, length: usize, output: *mut u8, room: usize) -> usize;)*
        }

        $(
            /// The text of `input` goes to the front of `output`; where it ends is returned.
            pub fn $name(input: &[u8], output: &mut [u8]) -> usize {
                // SAFETY: both slices are lent whole, with their lengths.
                unsafe {
                    $export(input.as_ptr(), input.len(), output.as_mut_ptr(), output.len())
                }
            }
        )*
    };
}

macro_rules! writers {
    ($($export:ident as $name:ident($($slice:ident)?);)*) => {
        unsafe extern "C" {
            $(fn $export(
                held: &mut usize,
                out: &mut usize,
                used: &mut usize,
                storage: *mut u8,
                capacity: usize,
                script: *const u32,
                replies: usize,
                medium: *mut u8,
                size: usize,
                $($slice: *const u8, length: usize,)?
                value: &mut usize,
                calls: &mut usize,
            ) -> u32;)*
        }

        $(
            #[inline]
            pub fn $name(
                writer: &mut Writer,
                storage: &mut [u8],
                script: &[u32],
                medium: &mut [u8],
                $($slice: &[u8],)?
            ) -> Told {
                let (mut value, mut calls) = (0, 0);
                // SAFETY: each slice is lent whole, with its length.
                let number = unsafe {
                    $export(
                        &mut writer.held,
                        &mut writer.out,
                        &mut writer.used,
                        storage.as_mut_ptr(),
                        storage.len(),
                        script.as_ptr(),
                        script.len(),
                        medium.as_mut_ptr(),
                        medium.len(),
                        $($slice.as_ptr(), $slice.len(),)?
                        &mut value,
                        &mut calls,
                    )
                };
                Told { number, value, calls }
            }
        )*
    };
}

macro_rules! readers {
    ($($export:ident as $name:ident($(slice $slice:ident)? $(number $n:ident: $type:ty)?);)*) => {
        unsafe extern "C" {
            $(fn $export(
                pos: &mut usize,
                filled: &mut usize,
                taken: &mut usize,
                used: &mut usize,
                storage: *mut u8,
                capacity: usize,
                script: *const u32,
                replies: usize,
                stock: *const u8,
                size: usize,
                $($n: $type,)?
                $($slice: *mut u8, length: usize,)?
                value: &mut usize,
                calls: &mut usize,
            ) -> u32;)*
        }

        $(
            #[inline]
            pub fn $name(
                reader: &mut Reader,
                storage: &mut [u8],
                script: &[u32],
                stock: &[u8],
                $($n: $type,)?
                $($slice: &mut [u8],)?
            ) -> Told {
                let (mut value, mut calls) = (0, 0);
                // SAFETY: each slice is lent whole, with its length.
                let number = unsafe {
                    $export(
                        &mut reader.pos,
                        &mut reader.filled,
                        &mut reader.taken,
                        &mut reader.used,
                        storage.as_mut_ptr(),
                        storage.len(),
                        script.as_ptr(),
                        script.len(),
                        stock.as_ptr(),
                        stock.len(),
                        $($n,)?
                        $($slice.as_mut_ptr(), $slice.len(),)?
                        &mut value,
                        &mut calls,
                    )
                };
                Told { number, value, calls }
            }
        )*
    };
}

texts! {
    stackglow_session as session;
    stackglow_judge as judge;
}

writers! {
    stackglow_write as write(slice);
    stackglow_write_all as write_all(slice);
    stackglow_flush as flush();
    stackglow_flush_buf as flush_buf();
    stackglow_line_write as line_write(slice);
    stackglow_line_write_all as line_write_all(slice);
}

readers! {
    stackglow_read as read(slice destination);
    stackglow_peek as peek(number n: usize);
    stackglow_consume as consume(number amt: usize);
    stackglow_seek_relative as seek_relative(number offset: i64);
    stackglow_fill_buf as fill_buf();
}
