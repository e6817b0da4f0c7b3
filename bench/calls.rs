//! The calls of a shared object: ours, or esp-hal's behind the same names. Every call goes through a pointer that is found when the
//! program runs, so no side can be compiled into the loop that times it.
use std::ffi::{c_char, c_int, c_void, CString};
use std::mem;

use suongkivat::raw::{SkvCode, SkvDecoded, SkvOutcome, SkvRead, SkvReading, SkvView, SkvVoltage};
use suongkivat::{Count, Field, LineRecord, Millivolt, Source};

extern "C" {
    fn dlopen(path: *const c_char, flags: c_int) -> *mut c_void;
    fn dlsym(object: *mut c_void, name: *const c_char) -> *mut c_void;
}

const RTLD_NOW: c_int = 2;

pub type ReadField = extern "C" fn(*const u32, usize, *const u8, usize, Field) -> SkvRead;
pub type Decode = extern "C" fn(*const u32, usize, *const u8, usize, *const u8, usize, u8, u8) -> SkvDecoded;
pub type NewCal = extern "C" fn(u8, u8) -> SkvDecoded;
pub type Convert = extern "C" fn(LineRecord, Count) -> SkvVoltage;
pub type Fill = extern "C" fn(LineRecord, Count, *mut u16, usize) -> SkvOutcome;
pub type Correct = extern "C" fn(u8, u8, u8, u8, Millivolt) -> SkvVoltage;
pub type S2Reading = extern "C" fn(*const u32, usize, *const u8, usize, u8, u8, u8) -> SkvReading;
pub type S2Code = extern "C" fn(*const u32, usize, *const u8, usize, *const u8, usize, u8, u8) -> SkvCode;
pub type CheckMap = extern "C" fn(u8, *const u8, usize, *const u8, usize) -> SkvOutcome;
pub type View = extern "C" fn(*const u32, usize, *const u32, usize, *const u8, usize, u8, u8) -> SkvView;
pub type TellSource = extern "C" fn(Source);
type Load = extern "C" fn(*const u32, u8);
type LoadS2 = extern "C" fn(*const u32);

struct Object(*mut c_void);

impl Object {
    fn open(path: &str) -> Self {
        let name = CString::new(path).expect("a path");
        let object = unsafe { dlopen(name.as_ptr(), RTLD_NOW) };
        assert!(!object.is_null(), "{path} can't be opened");
        Self(object)
    }

    /// The function of that name. Its type is the caller's to say: a pointer's.
    fn find<F: Copy>(&self, name: &str) -> F {
        assert_eq!(mem::size_of::<F>(), mem::size_of::<*mut c_void>());
        let symbol = CString::new(name).expect("a name");
        let place = unsafe { dlsym(self.0, symbol.as_ptr()) };
        assert!(!place.is_null(), "there is no {name}");
        unsafe { mem::transmute_copy(&place) }
    }
}

#[derive(Clone, Copy)]
pub struct Calls {
    pub read_field_u8: ReadField,
    pub read_field_u16: ReadField,
    pub read_field_u32: ReadField,
    pub decode: Decode,
    pub convert: Convert,
    pub fill: Fill,
    pub correct: Correct,
    pub s2_reading_vinit: S2Reading,
    pub s2_init_code: S2Code,
    load: Load,
}

impl Calls {
    fn of(object: &Object, load: Load) -> Self {
        Self {
            read_field_u8: object.find("skv_read_field_u8"),
            read_field_u16: object.find("skv_read_field_u16"),
            read_field_u32: object.find("skv_read_field_u32"),
            decode: object.find("skv_decode"),
            convert: object.find("skv_convert"),
            fill: object.find("skv_fill"),
            correct: object.find("skv_correct"),
            s2_reading_vinit: object.find("skv_s2_reading_vinit"),
            s2_init_code: object.find("skv_s2_init_code"),
            load,
        }
    }

    /// Ours need no loading; so that they can be timed with it, they have that of a build of esp-hal.
    pub fn ours(path: &str, other: &Crate) -> Self {
        Self::of(&Object::open(path), other.calls.load)
    }

    /// A decoding of lent slices.
    #[inline]
    pub fn decode(&self, dump: &[u32], lengths: &[u8], map: &[u8], unit: u8, atten: u8) -> SkvDecoded {
        (self.decode)(dump.as_ptr(), dump.len(), lengths.as_ptr(), lengths.len(), map.as_ptr(), map.len(), unit, atten)
    }

    /// Makes the words esp-hal's dump, and the number its C6's minor block version.
    pub fn load(&self, dump: &[u32; 88], minor: u8) {
        (self.load)(dump.as_ptr(), minor);
    }
}

/// The calls that only ours has.
pub struct Own {
    pub check_map: CheckMap,
    pub view: View,
}

impl Own {
    pub fn open(path: &str) -> Self {
        let object = Object::open(path);
        Self { check_map: object.find("skv_check_map"), view: object.find("skv_view") }
    }
}

/// A build of esp-hal: its calls, and what only it has.
pub struct Crate {
    pub calls: Calls,
    /// The same calls with our two tests in front of `convert`.
    pub tested: Calls,
    pub new_cal: NewCal,
    /// Says what its decodings give as their source.
    pub tell_source: TellSource,
    load_s2: LoadS2,
}

impl Crate {
    pub fn open(path: &str) -> Self {
        let object = Object::open(path);
        let calls = Calls::of(&object, object.find("load"));
        let tested = Calls { convert: object.find("tested_convert"), ..calls };
        Self {
            calls,
            tested,
            new_cal: object.find("new_cal"),
            tell_source: object.find("tell_source"),
            load_s2: object.find("load_s2"),
        }
    }

    /// Makes the words the dump of esp-hal's S2.
    pub fn load_s2(&self, dump: &[u32; 88]) {
        (self.load_s2)(dump.as_ptr());
    }
}
