//! Users of a KDC, their first requests, and the results of the replies.

mod clients;
mod keys;
mod replies;
