//! A version of the library, loaded from a folder that `tests/places.sh` fills: shared objects with the same code at different
//! places, and the program.

use std::ffi::{c_char, c_int, c_void, CString};
use std::os::unix::ffi::OsStrExt;
use std::path::{Path, PathBuf};

extern "C" {
    fn dlopen(name: *const c_char, flags: c_int) -> *mut c_void;
    fn dlsym(object: *mut c_void, name: *const c_char) -> *mut c_void;
}

/// Every symbol bound at once.
const RTLD_NOW: c_int = 2;

type Settle = unsafe extern "C" fn(*const u8, usize, u64, u64, *mut u8, usize, *mut u8, usize) -> u32;
type Append = unsafe extern "C" fn(*mut u8, usize, u64, *const u8, usize) -> u32;
type Audit = unsafe extern "C" fn(*const u8, usize) -> u32;
type DeliveryDay = unsafe extern "C" fn(u64, *const u32, usize, *mut u64) -> u32;
type TakeBack = unsafe extern "C" fn(*mut u8, usize) -> u32;
type Correction =
    unsafe extern "C" fn(*const i64, usize, *const i64, usize, *const i64, usize, *mut i64, *mut u64) -> u32;
type Preview =
    unsafe extern "C" fn(*mut u8, usize, u64, *const u8, usize, u64, u64, *mut u8, usize, *mut u8, usize) -> u32;

/// The library at one place of the code.
pub struct Place {
    settle: Settle,
    append: Append,
    audit: Audit,
    /// None in a version before dates.
    delivery_day: Option<DeliveryDay>,
    /// None in a version before taking back.
    take_back: Option<TakeBack>,
    /// None in a version before the correction.
    correction: Option<Correction>,
    /// None in a version before the preview.
    preview: Option<Preview>,
}

pub struct Version {
    // Not all programs use every part.
    #[allow(dead_code)]
    pub name: String,
    pub places: Vec<Place>,
    #[allow(dead_code)]
    pub program: PathBuf,
}

impl Version {
    /// The folder's objects, 0.so and so on.
    pub fn load(folder: &Path) -> Version {
        let folder = folder.canonicalize().expect("a folder with a version of the library");
        let objects = (0..).map(|number| folder.join(format!("{number}.so"))).take_while(|path| path.exists());
        Version {
            name: folder.file_name().expect("a folder's name").to_string_lossy().into_owned(),
            places: objects.map(|path| Place::load(&path)).collect(),
            program: folder.join("program"),
        }
    }
}

impl Version {
    #[allow(dead_code)]
    pub fn delivers(&self) -> bool {
        self.places.iter().all(|place| place.delivery_day.is_some())
    }

    pub fn takes_back(&self) -> bool {
        self.places.iter().all(|place| place.take_back.is_some())
    }

    pub fn corrects(&self) -> bool {
        self.places.iter().all(|place| place.correction.is_some())
    }

    pub fn previews(&self) -> bool {
        self.places.iter().all(|place| place.preview.is_some())
    }
}

impl Place {
    fn load(path: &Path) -> Place {
        let name = CString::new(path.as_os_str().as_bytes()).expect("a path");
        // Safety: the object is the library, whose functions have these types (include/sandegmur.h); it is never closed.
        unsafe {
            let object = dlopen(name.as_ptr(), RTLD_NOW);
            assert!(!object.is_null(), "{} can't be loaded", path.display());
            let symbol = |name: &[u8]| {
                let found = dlsym(object, name.as_ptr().cast());
                assert!(!found.is_null(), "{} lacks a call", path.display());
                found
            };
            Place {
                settle: std::mem::transmute::<*mut c_void, Settle>(symbol(b"settle\0")),
                append: std::mem::transmute::<*mut c_void, Append>(symbol(b"sandegmur_append\0")),
                audit: std::mem::transmute::<*mut c_void, Audit>(symbol(b"sandegmur_audit\0")),
                delivery_day: std::mem::transmute::<*mut c_void, Option<DeliveryDay>>(dlsym(
                    object,
                    b"sandegmur_delivery_day\0".as_ptr().cast(),
                )),
                take_back: std::mem::transmute::<*mut c_void, Option<TakeBack>>(dlsym(
                    object,
                    b"sandegmur_take_back\0".as_ptr().cast(),
                )),
                correction: std::mem::transmute::<*mut c_void, Option<Correction>>(dlsym(
                    object,
                    b"sandegmur_correction\0".as_ptr().cast(),
                )),
                preview: std::mem::transmute::<*mut c_void, Option<Preview>>(dlsym(
                    object,
                    b"sandegmur_preview\0".as_ptr().cast(),
                )),
            }
        }
    }

    // Safety, of all seven: pointer and length of every part come from one live slice, and the parts don't overlap.

    pub fn settle(&self, archive: &[u8], p: u64, k: u64, list: &mut [u8], result: &mut [u8]) -> u32 {
        let (lent, places, parts) = (archive.as_ptr(), list.as_mut_ptr(), result.as_mut_ptr());
        unsafe { (self.settle)(lent, archive.len(), p, k, places, list.len(), parts, result.len()) }
    }

    pub fn append(&self, archive: &mut [u8], owner: u64, record: &[u8]) -> u32 {
        unsafe { (self.append)(archive.as_mut_ptr(), archive.len(), owner, record.as_ptr(), record.len()) }
    }

    pub fn audit(&self, archive: &[u8]) -> u32 {
        unsafe { (self.audit)(archive.as_ptr(), archive.len()) }
    }

    #[allow(dead_code)]
    pub fn delivery_day(&self, quarter: u64, holidays: &[u32], day: &mut u64) -> u32 {
        let call = self.delivery_day.expect("a version with dates");
        unsafe { call(quarter, holidays.as_ptr(), holidays.len(), day) }
    }

    pub fn take_back(&self, archive: &mut [u8]) -> u32 {
        let call = self.take_back.expect("a version that takes back");
        unsafe { call(archive.as_mut_ptr(), archive.len()) }
    }

    pub fn correction(
        &self,
        amounts: &[i64],
        balanced: &[i64],
        prices: &[i64],
        cents: &mut i64,
        remainder: &mut u64,
    ) -> u32 {
        let call = self.correction.expect("a version that corrects");
        let lists = [amounts, balanced, prices].map(|list| (list.as_ptr(), list.len()));
        let [(amounts, amount_count), (balanced, balanced_count), (prices, price_count)] = lists;
        unsafe { call(amounts, amount_count, balanced, balanced_count, prices, price_count, cents, remainder) }
    }
    #[allow(clippy::too_many_arguments)]
    pub fn preview(
        &self,
        archive: &mut [u8],
        owner: u64,
        record: &[u8],
        p: u64,
        k: u64,
        list: &mut [u8],
        result: &mut [u8],
    ) -> u32 {
        let call = self.preview.expect("a version that previews");
        let (lent, length) = (archive.as_mut_ptr(), archive.len());
        let (places, parts) = (list.as_mut_ptr(), result.as_mut_ptr());
        let (new, new_length) = (record.as_ptr(), record.len());
        unsafe { call(lent, length, owner, new, new_length, p, k, places, list.len(), parts, result.len()) }
    }
}
