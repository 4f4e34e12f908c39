//! The archive behind the boundary. It is linked where `build.rs` found it, in the services that it exports.

use crate::services::Services;
use model::answer::{Service, SERVICES};

/// A `&[u8]` of the library passes as a pointer and then a length. The functions ask nothing of their slices.
type Export = unsafe extern "C" fn(*const u8, usize, *mut u8, usize, *mut u8, usize);

#[rustfmt::skip]
#[allow(dead_code)]
extern "C" {
    #[cfg(archive_check)]
    fn pesukoymi_check(image: *const u8, length: usize, out: *mut u8, room: usize, answer: *mut u8, size: usize);
    #[cfg(archive_order)]
    fn pesukoymi_order(image: *const u8, length: usize, out: *mut u8, room: usize, answer: *mut u8, size: usize);
    #[cfg(archive_expand)]
    fn pesukoymi_expand(image: *const u8, length: usize, out: *mut u8, room: usize, answer: *mut u8, size: usize);
}

fn export(service: Service) -> Option<Export> {
    match service {
        #[cfg(archive_check)]
        Service::Check => Some(pesukoymi_check),
        #[cfg(archive_order)]
        Service::Order => Some(pesukoymi_order),
        #[cfg(archive_expand)]
        Service::Expand => Some(pesukoymi_expand),
        #[allow(unreachable_patterns)]
        _ => None,
    }
}

/// The linked archive.
pub struct Archive(());

impl Archive {
    /// The archive, if it was there when this crate was built.
    pub fn linked() -> Option<Archive> {
        SERVICES.iter().any(|service| export(*service).is_some()).then_some(Archive(()))
    }
}

impl Services for Archive {
    fn offered(&self) -> Vec<Service> {
        SERVICES.into_iter().filter(|service| export(*service).is_some()).collect()
    }

    fn call(&self, service: Service, image: &[u8], out: &mut [u8], answer: &mut [u8]) {
        let export = export(service).expect("a service that the archive offers");
        // Three slices that share no byte, each valid for its length as long as the call lasts.
        unsafe {
            export(
                image.as_ptr(),
                image.len(),
                out.as_mut_ptr(),
                out.len(),
                answer.as_mut_ptr(),
                answer.len(),
            )
        }
    }
}
