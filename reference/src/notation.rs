//! A text notation for books: one record a line, with names for regions and
//! nodes. `#` starts a comment.
//!
//! ```text
//! cell 0 1 0 = 250                             # table owner line = amount
//! region flat1 = table 0 owners 1-1 lines 0-7
//! public flat1
//! read 1 flat1                                 # user, region
//! write 0 flat1
//! node one = constant 1
//! node v = variable 3
//! node s = one + v                             # also -, equals, less
//! node q = sum table 0 owners one to one lines v to s
//!                                              # also count, smallest, largest
//! node c0 = skip
//! node c1 = set 3 to s
//! node c2 = c0 then c1
//! node c3 = if s then c1 else c2
//! node c4 = while s do c3
//! node c5 = put s at table 0 owner one line v
//! node c6 = clear table 0 owner one line v
//! node c7 = out q to 1
//! node c8 = grant read flat1 to 1              # also write
//! node c9 = revoke write flat1 from 1          # also read
//! node c10 = raise 3 by flat1
//! program 0 c7                                 # user, root
//! trigger flat1 put 0 c5                       # region, event, user, body
//! label 0 1 0 = 0.1.0 0.2.0-7 3.0-7.0-7        # table owner line = places
//! label 0 2 0 = nothing                        # the empty label
//! version 2
//! ```
//!
//! A name is declared above its first use. Records keep the order of the text.
//!
//! The label of a cell is `nothing` or a list of places, each as
//! TABLE.OWNER.LINE. Owner and line may be ranges, FIRST-LAST, for every place
//! in them. A text with a label, or with the line `version 2`, is a book of
//! version 2; any other is one of version 1.

mod assemble;
mod label;
mod list;

pub use assemble::{assemble, Fault};
pub use list::list;
