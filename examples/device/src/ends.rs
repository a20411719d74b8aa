//! The file descriptors that an interface has in place of a key's endpoints.
use std::fs::File;
use std::io;
use std::mem::ManuallyDrop;
use std::os::fd::{AsFd, BorrowedFd, FromRawFd, RawFd};

/// What whoever starts the device opens for the vendor's interface.
const VENDOR_INPUT: RawFd = 3;
const VENDOR_OUTPUT: RawFd = 4;

/// Where the packets of an interface come, and where they go.
pub struct Ends {
    pub input: File,
    pub output: File,
}

impl Ends {
    /// Those of the main interface and, if there is one, of the vendor's.
    pub fn of_interfaces(has_vendor: bool) -> Result<Vec<Ends>, String> {
        // before any is opened here, which would get one of these numbers where it is free
        let vendor = has_vendor.then(Ends::of_vendor).transpose()?;
        let main = Ends::of_main().map_err(|error| error.to_string())?;
        Ok([main].into_iter().chain(vendor).collect())
    }

    fn of_main() -> io::Result<Ends> {
        Ok(Ends {
            input: copied(io::stdin().as_fd())?,
            output: copied(io::stdout().as_fd())?,
        })
    }

    fn of_vendor() -> Result<Ends, String> {
        Ok(Ends {
            input: inherited(VENDOR_INPUT)?,
            output: inherited(VENDOR_OUTPUT)?,
        })
    }
}

fn copied(descriptor: BorrowedFd) -> io::Result<File> {
    Ok(File::from(descriptor.try_clone_to_owned()?))
}

fn inherited(number: RawFd) -> Result<File, String> {
    // SAFETY: nothing else here has it, and if it isn't open it isn't closed
    let file = ManuallyDrop::new(unsafe { File::from_raw_fd(number) });
    match file.metadata() {
        Ok(_) => Ok(ManuallyDrop::into_inner(file)),
        Err(error) => Err(format!("the vendor's file descriptor {number}: {error}")),
    }
}
