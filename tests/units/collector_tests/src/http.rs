//! Tests of the crates that read requests and replies of HTTP/1.1: streams, recorded ones too, and each limit from
//! both sides, in pieces of several sizes.
pub mod limit_rows;
pub mod past;
pub mod replies;
pub mod reply_rows;
pub mod request_rows;
pub mod requests;
pub mod told;
pub mod window_rows;
pub mod windows;
pub mod written;
