//! One program at a time has a file.
use std::fs::File;
use std::io;

/// Holds a file until it is dropped, or its process ends in whatever way.
pub struct Lock {
    #[cfg(any(target_os = "linux", target_os = "android"))]
    _name: std::os::unix::net::UnixListener,
}

/// Takes a file for this program alone. `None` if another program of this machine has it. Where the system has no names of sockets
/// that go with their process, nothing is tested.
pub fn lock(file: &File) -> io::Result<Option<Lock>> {
    #[cfg(any(target_os = "linux", target_os = "android"))]
    {
        #[cfg(target_os = "android")]
        use std::os::android::net::SocketAddrExt;
        #[cfg(target_os = "linux")]
        use std::os::linux::net::SocketAddrExt;
        use std::os::unix::{fs::MetadataExt, net};

        let at = file.metadata()?;
        let name = net::SocketAddr::from_abstract_name(format!("intervallum-keep-{}-{}", at.dev(), at.ino()))?;
        match net::UnixListener::bind_addr(&name) {
            Ok(_name) => Ok(Some(Lock { _name })),
            Err(error) if error.kind() == io::ErrorKind::AddrInUse => Ok(None),
            Err(error) => Err(error),
        }
    }
    #[cfg(not(any(target_os = "linux", target_os = "android")))]
    {
        let _ = file;
        Ok(Some(Lock {}))
    }
}
