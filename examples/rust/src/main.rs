//! Images from Rust: a wrapper whose borrows keep the bytes, and a program over it.
use std::marker::PhantomData;

#[repr(C)]
#[derive(Clone, Copy)]
struct Slice {
    at: *const u8,
    len: usize,
}

#[repr(C)]
#[derive(Clone, Copy, Default)]
struct Page {
    marks: [u8; 24],
    used: u8,
    next: u32,
}

#[repr(C)]
struct Raw {
    bytes: Slice,
    index: *const Page,
    index_len: usize,
    records: u64,
    version: u32,
    initial: u32,
    capacity: u32,
    load: u32,
    max: u32,
    buckets: u32,
    pages: u32,
    at: u32,
}

extern "C" {
    fn lhf_open(image: *mut Raw, bytes: *const u8, size: usize) -> u32;
    fn lhf_check(image: *mut Raw, index: *mut Page, len: usize) -> u32;
    fn lhf_find(image: *const Raw, key: *const u8, len: usize, value: *mut Slice) -> u32;
    fn lhf_next(image: *const Raw, place: *mut u64, key: *mut Slice, value: *mut Slice) -> u32;
}

/// Why bytes are no image: the number of the fault, and its page.
#[derive(Debug)]
pub struct Fault(pub u32, pub u32);

pub struct Image<'a> {
    raw: Raw,
    _index: Box<[Page]>,
    _bytes: PhantomData<&'a [u8]>,
}

impl<'a> Image<'a> {
    pub fn open(bytes: &'a [u8]) -> Result<Self, Fault> {
        let none = Slice { at: bytes.as_ptr(), len: 0 };
        let mut index = Box::<[Page]>::default();
        let mut raw = Raw {
            bytes: none,
            index: index.as_ptr(),
            index_len: 0,
            records: 0,
            version: 0,
            initial: 0,
            capacity: 0,
            load: 0,
            max: 0,
            buckets: 0,
            pages: 0,
            at: 0,
        };
        // SAFETY: the declarations fit lhf.h; `bytes` is borrowed as long as the image lives, and the index is its own.
        unsafe {
            let fault = lhf_open(&mut raw, bytes.as_ptr(), bytes.len());
            if fault != 0 {
                return Err(Fault(fault, raw.at));
            }
            index = vec![Page::default(); raw.pages as usize].into_boxed_slice();
            let fault = lhf_check(&mut raw, index.as_mut_ptr(), index.len());
            if fault != 0 {
                return Err(Fault(fault, raw.at));
            }
        }
        Ok(Image { raw, _index: index, _bytes: PhantomData })
    }

    pub fn get(&self, key: &[u8]) -> Option<&'a [u8]> {
        let mut value = Slice { at: key.as_ptr(), len: 0 };
        // SAFETY: as above; a value that is found lies within `bytes`.
        unsafe {
            (lhf_find(&self.raw, key.as_ptr(), key.len(), &mut value) == 0)
                .then(|| std::slice::from_raw_parts(value.at, value.len))
        }
    }

    /// All records.
    pub fn iter(&self) -> impl Iterator<Item = (&'a [u8], &'a [u8])> + '_ {
        let (mut place, none) = (0, self.raw.bytes);
        std::iter::from_fn(move || {
            let (mut key, mut value) = (none, none);
            // SAFETY: as above.
            unsafe {
                (lhf_next(&self.raw, &mut place, &mut key, &mut value) == 0).then(|| {
                    (
                        std::slice::from_raw_parts(key.at, key.len),
                        std::slice::from_raw_parts(value.at, value.len),
                    )
                })
            }
        })
    }
}

fn main() {
    let mut words = std::env::args().skip(1);
    let bytes = std::fs::read(words.next().expect("a file")).expect("it is read");
    let image = Image::open(&bytes).expect("it is an image");
    let text = |bytes| String::from_utf8_lossy(bytes).into_owned();
    let mut no_word = true;
    for key in words {
        no_word = false;
        println!("{key} {}", image.get(key.as_bytes()).map_or("is absent".into(), text));
    }
    if no_word {
        for (key, value) in image.iter() {
            println!("{} {}", text(key), text(value));
        }
    }
}
