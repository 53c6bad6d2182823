//! Cases in every cutting of one or two sizes.

use crate::every::Cases;
use crate::line::Case;

/// Every case in pieces of each size from 0 to 9, and of each two of them in turn.
pub fn cut(cases: Cases) -> Cases {
    let cuts: Vec<String> = (0..10).map(|size| size.to_string()).chain((0..100).map(|sizes| format!("{sizes:02}"))).collect();
    Box::new(cases.map(move |cases| {
        let all = cases.iter().flat_map(|case| cuts.iter().map(move |list| Case { list: list.clone(), ..case.clone() }));
        all.collect()
    }))
}
