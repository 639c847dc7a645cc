//! What sets header fields, or refuses a request.

use dns_net::{NetError, SetHeaders};
use http::{HeaderMap, HeaderValue};

/// Sets no header field, and refuses each request with `Timeout` or `Io`.
#[derive(Drop)]
pub(crate) struct Refuses {
    pub(crate) is_late: bool,
}

impl SetHeaders for Refuses {
    ghost pairs = { ? };

    ghost refuses = { ? };

    fn set_headers(&self, _headers: &mut HeaderMap<HeaderValue>) -> Result<(), NetError> {
        if self.is_late {
            return Err(NetError::Timeout);
        }
        Err(NetError::Io)
    }
}

/// Sets `test-header: test-header-value`.
#[derive(Drop)]
pub(crate) struct TestHeader;

impl SetHeaders for TestHeader {
    ghost pairs = { ? };

    ghost refuses = { ? };

    fn set_headers(&self, headers: &mut HeaderMap<HeaderValue>) -> Result<(), NetError> {
        match headers.insert("test-header", HeaderValue::from_static("test-header-value")) {
            Ok(_) => Ok(()),
            Err(_) => Err(NetError::OutOfMemory),
        }
    }
}
