//! Misuse that the compiler refuses. This compiles; each example after it differs from it in one line and does not.
//!
//! ```
//! #![deny(unused_must_use)]
//! let mut search = planner::Search::open(b"A0010201\nA1010001\nA1010002\nA200010001\n")?;
//! let job: planner::Job = search.jobs()[0];
//! let delay = search.delays()[0];
//! let window: planner::Window = search.windows()[0];
//! let answer = search.run(1)?;
//! let plan = search.plan();
//! # Ok::<(), planner::Refusal>(())
//! ```
//!
//! A job is read and not made:
//!
//! ```compile_fail,E0451
//! #![deny(unused_must_use)]
//! let mut search = planner::Search::open(b"A0010201\nA1010001\nA1010002\nA200010001\n")?;
//! let job: planner::Job = planner::Job { ticks: 17, masks: [0; 16] };
//! let delay = search.delays()[0];
//! let window: planner::Window = search.windows()[0];
//! let answer = search.run(1)?;
//! let plan = search.plan();
//! # Ok::<(), planner::Refusal>(())
//! ```
//!
//! Nor is a window:
//!
//! ```compile_fail,E0451
//! #![deny(unused_must_use)]
//! let mut search = planner::Search::open(b"A0010201\nA1010001\nA1010002\nA200010001\n")?;
//! let job: planner::Job = search.jobs()[0];
//! let delay = search.delays()[0];
//! let window: planner::Window = planner::Window { lined: 1, earliest: 2, latest: 1 };
//! let answer = search.run(1)?;
//! let plan = search.plan();
//! # Ok::<(), planner::Refusal>(())
//! ```
//!
//! A search's delay is read and not set:
//!
//! ```compile_fail,E0594
//! #![deny(unused_must_use)]
//! let mut search = planner::Search::open(b"A0010201\nA1010001\nA1010002\nA200010001\n")?;
//! let job: planner::Job = search.jobs()[0];
//! search.delays()[0].from = 24;
//! let window: planner::Window = search.windows()[0];
//! let answer = search.run(1)?;
//! let plan = search.plan();
//! # Ok::<(), planner::Refusal>(())
//! ```
//!
//! An answer is not dropped unseen:
//!
//! ```compile_fail
//! #![deny(unused_must_use)]
//! let mut search = planner::Search::open(b"A0010201\nA1010001\nA1010002\nA200010001\n")?;
//! let job: planner::Job = search.jobs()[0];
//! let delay = search.delays()[0];
//! let window: planner::Window = search.windows()[0];
//! search.run(1)?;
//! let plan = search.plan();
//! # Ok::<(), planner::Refusal>(())
//! ```
//!
//! Nor is a plan:
//!
//! ```compile_fail
//! #![deny(unused_must_use)]
//! let mut search = planner::Search::open(b"A0010201\nA1010001\nA1010002\nA200010001\n")?;
//! let job: planner::Job = search.jobs()[0];
//! let delay = search.delays()[0];
//! let window: planner::Window = search.windows()[0];
//! let answer = search.run(1)?;
//! search.plan();
//! # Ok::<(), planner::Refusal>(())
//! ```
