//! What stands for a path.

use std::borrow::Cow;
use std::ffi::{OsStr, OsString};
use std::os::unix::ffi::OsStrExt;
use std::path::{Path, PathBuf};

/// What a call takes for a path, or for the text of a link: a [`Path`], an [`OsStr`], a [`str`] or bytes, owned or not.
///
/// The tree knows bytes alone, so a name needn't be UTF-8.
///
/// ```
/// use gigbewu::{Cache, Follow, ROOT};
/// use std::path::Path;
///
/// let mut pass = Cache::new(64, 100)?.pass()?;
/// pass.mkdir(ROOT, Path::new("/a"))?;
/// pass.create(ROOT, b"/a/\xff")?;
/// for name in ["a", "/a/", "a/../a/."] {
///     assert_eq!(pass.look(ROOT, name, Follow::Yes)?.number, 2);
/// }
/// # Ok::<(), gigbewu::Error>(())
/// ```
pub trait AsPathBytes {
    /// Its bytes.
    ///
    /// ```
    /// use gigbewu::AsPathBytes;
    /// use std::path::Path;
    ///
    /// assert_eq!(Path::new("/a/b").as_path_bytes(), b"/a/b");
    /// ```
    fn as_path_bytes(&self) -> &[u8];
}

impl AsPathBytes for [u8] {
    fn as_path_bytes(&self) -> &[u8] {
        self
    }
}

impl<const LEN: usize> AsPathBytes for [u8; LEN] {
    fn as_path_bytes(&self) -> &[u8] {
        self
    }
}

impl AsPathBytes for Vec<u8> {
    fn as_path_bytes(&self) -> &[u8] {
        self
    }
}

impl AsPathBytes for str {
    fn as_path_bytes(&self) -> &[u8] {
        self.as_bytes()
    }
}

impl AsPathBytes for String {
    fn as_path_bytes(&self) -> &[u8] {
        self.as_bytes()
    }
}

impl AsPathBytes for OsStr {
    fn as_path_bytes(&self) -> &[u8] {
        self.as_bytes()
    }
}

impl AsPathBytes for OsString {
    fn as_path_bytes(&self) -> &[u8] {
        self.as_bytes()
    }
}

impl AsPathBytes for Path {
    fn as_path_bytes(&self) -> &[u8] {
        self.as_os_str().as_bytes()
    }
}

impl AsPathBytes for PathBuf {
    fn as_path_bytes(&self) -> &[u8] {
        self.as_os_str().as_bytes()
    }
}

impl<T: AsPathBytes + ToOwned + ?Sized> AsPathBytes for Cow<'_, T> {
    fn as_path_bytes(&self) -> &[u8] {
        (**self).as_path_bytes()
    }
}

impl<T: AsPathBytes + ?Sized> AsPathBytes for &T {
    fn as_path_bytes(&self) -> &[u8] {
        (**self).as_path_bytes()
    }
}
