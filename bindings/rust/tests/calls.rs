//! Each call once, refusals as errors, and what may stand for a path.

use gigbewu::{Cache, Error, Follow, Gone, Kind, Looks, Pass, Replace, Why, ROOT};
use std::borrow::Cow;
use std::ffi::{OsStr, OsString};
use std::io;
use std::os::unix::ffi::OsStrExt;
use std::path::{Path, PathBuf};

#[test]
fn each_call() -> Result<(), Error> {
    let cache = Cache::new(256, 100)?;
    let mut pass = cache.pass()?;
    assert_eq!(pass.mkdir(ROOT, "/d")?.number, 2);
    assert_eq!(pass.create(2, "f")?.number, 3);
    assert_eq!(pass.symlink(ROOT, "d/f", "/l")?.number, 4);
    assert_eq!(pass.link(ROOT, "/d/f", "/h")?.number, 3);
    assert_eq!(pass.look(ROOT, "/l", Follow::No)?.kind, Kind::Link);
    assert_eq!(pass.resolve(ROOT, "/l", Follow::Yes)?.number, 3);
    let missing = pass.resolve(2, "g", Follow::Yes).unwrap_err();
    assert_eq!(missing.errno(), Some(2));
    assert_eq!(pass.look_fast(2, "g", Follow::Yes), Err(missing));
    assert_eq!(pass.stat(ROOT, "/l")?.count, 2);
    assert_eq!(pass.readlink(ROOT, "/l")?, Path::new("d/f"));
    assert_eq!(pass.readlink_fast(ROOT, "/l")?.kind, Kind::Link);
    pass.look(ROOT, "/d/f", Follow::Yes)?;
    let refused = pass.readlink_fast(ROOT, "/d/f").unwrap_err();
    assert_eq!(refused.errno(), Some(22));
    assert_eq!(pass.readlink(ROOT, "/d/f"), Err(refused));
    assert_eq!(pass.evictions()?, 0);
    let names: Vec<_> = pass.read_dir(ROOT, "/")?.collect();
    assert_eq!(names, ["d", "h", "l"]);
    let gone = |number, kind, last| Some(Gone { number, kind, last });
    let file = gone(3, Kind::File, false);
    assert_eq!(pass.unlink(ROOT, "/h")?.gone, file);
    let mut rename = |replace| pass.rename(ROOT, "/l", "/d/f", replace);
    assert_eq!(rename(Replace::Exchange)?.gone, None);
    assert_eq!(rename(Replace::Yes)?.gone, gone(4, Kind::Link, true));
    let last = gone(3, Kind::File, true);
    assert_eq!(pass.unlink(ROOT, "/d/f")?.gone, last);
    let directory = gone(2, Kind::Dir, true);
    assert_eq!(pass.rmdir(ROOT, "/d")?.gone, directory);
    assert_eq!(pass.learn(9)?, 9);
    assert_eq!(pass.learn(10), Err(Error::NotYet(9)));
    assert!(pass.shrink(u64::MAX)? <= 4 * 256);
    Ok(())
}

#[test]
fn long_lists() -> Result<(), Error> {
    let cache = Cache::new(1_024, 1_001)?;
    let mut pass = cache.pass()?;
    let made: Vec<_> = (0..1_000).map(|it| format!("name_{it:04}")).collect();
    for name in made.iter().rev() {
        pass.create(ROOT, name)?;
    }
    let names = pass.list(ROOT, "/")?;
    assert!(names.iter().eq(made.iter().map(String::as_bytes)));
    assert_eq!((names.at(), names.is_empty()), (1_000, false));
    let mut paged = Vec::new();
    for entry in pass.entries(ROOT, "/")? {
        paged.push(entry?.name.into_string().unwrap());
    }
    assert_eq!(paged, made);
    let owned: Vec<_> = pass.read_dir(ROOT, "/")?.collect();
    assert!(owned
        .iter()
        .eq(&made.iter().map(OsString::from).collect::<Vec<_>>()));
    Ok(())
}

/// The lists of an empty directory end at once, and stay at their end.
#[test]
fn no_names() -> Result<(), Error> {
    let mut pass = Cache::new(1, 1)?.pass()?;
    let names = pass.list(ROOT, "/")?;
    assert!(names.is_empty());
    assert_eq!(names.iter().next(), None);
    let mut owned = pass.read_dir(ROOT, "/")?;
    assert_eq!((owned.next(), owned.next()), (None, None));
    Ok(())
}

#[test]
fn what_stands_for_a_path() -> Result<(), Error> {
    let mut pass = Cache::new(64, 100)?.pass()?;
    let bytes = b"/\xffname";
    let made = pass.create(ROOT, bytes)?.number;
    let text = OsStr::from_bytes(bytes);
    let mut numbers = vec![
        pass.look(ROOT, &bytes[..], Follow::Yes)?.number,
        pass.look(ROOT, bytes.to_vec(), Follow::Yes)?.number,
        pass.look(ROOT, text, Follow::Yes)?.number,
        pass.look(ROOT, OsString::from(text), Follow::Yes)?.number,
        pass.look(ROOT, Path::new(text), Follow::Yes)?.number,
        pass.look(ROOT, PathBuf::from(text), Follow::Yes)?.number,
        pass.look(ROOT, Cow::Borrowed(Path::new(text)), Follow::Yes)?
            .number,
    ];
    numbers.dedup();
    assert_eq!(numbers, [made]);
    assert_eq!(
        pass.read_dir(ROOT, "/")?.next(),
        Some(OsStr::from_bytes(&bytes[1..]).into())
    );
    let link = pass.symlink(ROOT, text, String::from("/l"))?.number;
    assert_eq!(pass.readlink(ROOT, "/l")?, Path::new(text));
    assert_eq!(pass.look(ROOT, "l", Follow::No)?.number, link);
    Ok(())
}

#[test]
fn refusals() -> Result<(), Error> {
    assert_eq!(Cache::new(3, 1).err(), Some(Error::BadSize));
    assert_eq!(Cache::new(1, 0).err(), Some(Error::BadSize));
    assert_eq!(Cache::new(1 << 23, 1).err(), Some(Error::BadSize));
    assert_eq!(Cache::new(1, (1 << 32) + 1).err(), Some(Error::BadSize));
    assert!(Cache::new(1, 1 << 32).is_ok());
    let mut pass = Cache::new(1, 1)?.pass()?;
    let refused = pass.create(ROOT, "/f").unwrap_err();
    assert_eq!(refused, Error::Refused { errno: 28, at: 0 });
    assert!(refused.to_string().contains("No space left"));
    let mut refusal = |path: &[u8]| pass.look(ROOT, path, Follow::Yes).unwrap_err().errno();
    assert_eq!(refusal(b""), Some(2));
    assert_eq!(refusal(b"a\0"), Some(22));
    assert_eq!(refusal(&[b'n'; 256]), Some(36));
    let miss = Err(Error::Again(Why::Miss));
    assert_eq!(pass.look_fast(ROOT, [b'n'; 255], Follow::Yes), miss);
    Ok(())
}

#[test]
fn looks() -> Result<(), Error> {
    let cache = Cache::new(64, 100)?;
    let mut pass = cache.pass()?;
    let told = |pass: &Pass, by_rows, under_lock| {
        let looks = Looks {
            by_rows,
            under_lock,
        };
        assert_eq!(pass.looks(), looks);
    };
    told(&pass, 0, 0);
    assert!(pass.look_fast(ROOT, "/a", Follow::Yes).is_err()); // answers nothing
    told(&pass, 0, 0);
    assert!(pass.look(ROOT, "/a", Follow::Yes).is_err()); // is refused, and fills a row
    told(&pass, 0, 1);
    assert!(pass.look(ROOT, "/a", Follow::Yes).is_err());
    assert!(pass.look_fast(ROOT, "/a", Follow::Yes).is_err());
    told(&pass, 2, 1);
    pass.stat(ROOT, "/")?; // no look-up
    told(&pass, 2, 1);
    told(&pass.split()?, 0, 0);
    Ok(())
}

/// A trail is told whole, whatever room there was for it and however the path ends, and nothing else is left of one before.
#[test]
fn trails() -> Result<(), Error> {
    let mut pass = Cache::new(64, 100)?.pass()?;
    let mut numbers = vec![ROOT];
    for _ in 0..40 {
        let made = pass.mkdir(numbers[numbers.len() - 1], "a")?.number;
        numbers.push(made);
    }
    let mut trail = Vec::new();
    let mut look = |base, path: &str, trail: &mut Vec<u64>| {
        let found = pass.look_along(base, path, Follow::Yes, trail);
        found.map_err(|refused| refused.errno()).map(|it| it.number)
    };
    let deep = "/a".repeat(40);
    assert_eq!(look(ROOT, &deep, &mut trail), Ok(numbers[40]));
    assert_eq!(trail, numbers[..40]);
    assert_eq!(look(ROOT, &deep, &mut Vec::new()), Ok(numbers[40])); // by rows, with more places each time
    assert_eq!(look(ROOT, "/a/../a/b/c", &mut trail), Err(Some(2)));
    assert_eq!(trail, numbers[..2]);
    assert_eq!(look(numbers[2], "..", &mut trail), Ok(numbers[1]));
    assert_eq!(trail, [numbers[2]]);
    assert_eq!(look(ROOT, "/", &mut trail), Ok(ROOT));
    assert_eq!(trail, []);
    assert_eq!(look(99, "a", &mut trail), Err(Some(2)));
    assert_eq!(trail, [99]);
    assert_eq!(look(ROOT, "/a\0", &mut trail), Err(Some(22)));
    assert_eq!(trail, []);
    assert_eq!(pass.looks(), Looks::default());
    Ok(())
}

/// The rows alone tell a trail once they are filled, and until then nothing.
#[test]
fn trails_by_rows() -> Result<(), Error> {
    let mut pass = Cache::new(64, 100)?.pass()?;
    let made = pass.mkdir(ROOT, "/a")?.number;
    let mut trail = vec![7; 3];
    let miss = Err(Error::Again(Why::Miss));
    assert_eq!(
        pass.look_fast_along(ROOT, "/a/b", Follow::Yes, &mut trail),
        miss
    );
    assert_eq!(trail, []);
    assert_eq!(pass.rows_in_use()?, 0);
    let told = pass.look_along(ROOT, "/a/b", Follow::Yes, &mut trail);
    assert_eq!(trail, [ROOT, made]);
    assert_eq!(pass.rows_in_use()?, 2);
    let mut by_rows = Vec::new();
    assert_eq!(
        pass.look_fast_along(ROOT, "/a/b", Follow::Yes, &mut by_rows),
        told
    );
    assert_eq!(by_rows, trail);
    assert_eq!(pass.shrink(u64::MAX)?, 2);
    assert_eq!(pass.rows_in_use()?, 0);
    Ok(())
}

#[test]
fn errors_of_the_standard_library() {
    let kinds = [
        (Error::Refused { errno: 2, at: 7 }, io::ErrorKind::NotFound),
        (
            Error::Refused { errno: 17, at: 0 },
            io::ErrorKind::AlreadyExists,
        ),
        (Error::Again(Why::Changed), io::ErrorKind::WouldBlock),
        (Error::NotYet(3), io::ErrorKind::WouldBlock),
        (Error::NoMemory, io::ErrorKind::OutOfMemory),
        (Error::BadSize, io::ErrorKind::InvalidInput),
        (Error::Spent, io::ErrorKind::Other),
    ];
    for (error, kind) in kinds {
        assert_eq!(io::Error::from(error).kind(), kind, "{error}");
    }
    let refused = io::Error::from(Error::Refused { errno: 39, at: 0 });
    assert_eq!(refused.raw_os_error(), Some(39));
}

/// A file has no path, nor has what isn't there, nor a directory whose path would have 4,096 bytes.
#[test]
fn no_path() -> Result<(), Error> {
    let mut pass = Cache::new(64, 100)?.pass()?;
    let file = pass.create(ROOT, "/f")?.number;
    let name = "n".repeat(255);
    let mut above = ROOT;
    for _ in 0..15 {
        above = pass.mkdir(above, &name)?.number;
    }
    let longest = pass.mkdir(above, &name[1..])?.number;
    let longer = pass.mkdir(above, &name)?.number;
    assert_eq!(pass.path_of(longest)?.as_os_str().len(), 4_095);
    for (number, errno) in [(file, 2), (longer + 1, 2), (0, 2), (longer, 36)] {
        assert_eq!(pass.path_of(number).unwrap_err().errno(), Some(errno));
    }
    Ok(())
}

#[test]
fn one_name_more_than_can_be_noted() -> Result<(), Error> {
    let mut pass = Cache::new(1_024, 300)?.pass()?;
    let path = "/a".repeat(257);
    for names in 1..=257 {
        pass.mkdir(ROOT, &path[..2 * names])?;
    }
    pass.look(ROOT, &path, Follow::Yes)?;
    let long = Err(Error::Again(Why::Long));
    assert_eq!(pass.look_fast(ROOT, &path, Follow::Yes), long);
    let deep = &path[..2 * 256];
    pass.look(ROOT, deep, Follow::Yes)?;
    assert_eq!(pass.look_fast(ROOT, deep, Follow::Yes)?.kind, Kind::Dir);
    Ok(())
}
