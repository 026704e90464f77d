//! Messages on internal errors.
use super::plans::UserData;
use super::{Out, call_back, put};
use core::ffi::c_char;
use core::fmt::{self, Write as _};
use core::ptr::null_mut;
use std::io::{self, Write as _};
use std::panic::{self, PanicHookInfo};
use std::sync::{Once, PoisonError, RwLock};

/// `sengadlit_message_func_t`.
type MessageFunc = unsafe extern "C-unwind" fn(*const c_char, UserData);

/// Who takes messages.
#[derive(Clone, Copy)]
struct Receiver {
    func: MessageFunc,
    user_data: UserData,
}

// SAFETY: the pointer is only handed to the function, which C promises may be called on any thread.
unsafe impl Send for Receiver {}
// SAFETY: the same.
unsafe impl Sync for Receiver {}

static RECEIVER: RwLock<Option<Receiver>> = RwLock::new(None);

/// A message of C, cut where it would be longer. It is on the stack, since memory may be what is missing.
struct Text {
    bytes: [u8; 512],
    length: usize,
}

impl Text {
    fn new() -> Self {
        Text {
            bytes: [0; 512],
            length: 0,
        }
    }
}

impl fmt::Write for Text {
    fn write_str(&mut self, more: &str) -> fmt::Result {
        let room = self.bytes.len() - 1 - self.length;
        let mut taken = more.len().min(room);
        while !more.is_char_boundary(taken) {
            taken -= 1;
        }
        self.bytes[self.length..][..taken].copy_from_slice(&more.as_bytes()[..taken]);
        self.length += taken;
        if taken == more.len() {
            Ok(())
        } else {
            Err(fmt::Error)
        }
    }
}

/// Hands the message of a panic on.
fn report(panic: &PanicHookInfo<'_>) {
    tell(panic);
}

/// Hands a message to who takes messages, and else writes it to standard error, as Rust would that of a panic.
pub fn tell(message: &dyn fmt::Display) {
    let receiver = *RECEIVER.read().unwrap_or_else(PoisonError::into_inner);
    let Some(Receiver { func, user_data }) = receiver else {
        let _ = writeln!(io::stderr(), "{message}");
        return;
    };
    let mut text = Text::new();
    // (a message that is cut is a message)
    let _ = write!(text, "{message}");
    // SAFETY: the function is C's, of this type; the text ends with a zero byte and lasts through the call.
    call_back(|| unsafe { func(text.bytes.as_ptr().cast(), user_data) });
}

#[unsafe(no_mangle)]
pub extern "C" fn sengadlit_set_message_func(func: Option<MessageFunc>, user_data: UserData) {
    static ONCE: Once = Once::new();
    *RECEIVER.write().unwrap_or_else(PoisonError::into_inner) =
        func.map(|func| Receiver { func, user_data });
    // (a box of a function takes no memory, which could be refused)
    ONCE.call_once(|| panic::set_hook(Box::new(report)));
}

#[unsafe(no_mangle)]
pub extern "C" fn sengadlit_get_message_func(user_data: Out<'_, UserData>) -> Option<MessageFunc> {
    let receiver = *RECEIVER.read().unwrap_or_else(PoisonError::into_inner);
    put(
        user_data,
        receiver.map_or(null_mut(), |receiver| receiver.user_data),
    );
    receiver.map(|receiver| receiver.func)
}

#[cfg(test)]
mod tests {
    use super::Text;
    use core::fmt::Write as _;

    #[test]
    fn a_long_message_is_cut_between_characters() {
        let mut text = Text::new();
        assert!(text.write_str(&"a".repeat(510)).is_ok());
        assert!(text.write_str("\u{1780}").is_err());
        assert_eq!((text.length, text.bytes[510]), (510, 0));
        assert!(text.write_str("b").is_ok());
        assert!(text.write_str("c").is_err());
        assert_eq!(
            (text.length, text.bytes[510], text.bytes[511]),
            (511, b'b', 0)
        );
    }
}
