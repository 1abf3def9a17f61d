//! The plain run: each granted section whole, in the order of the grants.

use crate::sections::*;

/// The cells and locals that the granted sections leave, taken one after another.
pub fn plain_run(scripts: &[Script], mut data: Data, grants: &[Grant]) -> Data {
    for grant in grants {
        let Some(script) = scripts.iter().find(|script| script.task == grant.task) else { continue };
        for &step in &script.sections[grant.section].steps {
            data.take(grant.task, step);
        }
    }
    data
}
