//! The family on which the original takes exponentially long: 80 00, a branch to its own next position, some
//! times, and A0. There is one image of each length, so these figures are of a trained branch predictor.

use crate::cases::Case;
use crate::check::tracing as check;
use crate::clock;
use crate::report;
use crate::rows::tracing as rows;
use compare::random::Random;

/// How often the branch stands there: where the original ends, and where it would not.
const WITH_THE_ORIGINAL: [usize; 5] = [0, 4, 8, 12, 16];
const WITHOUT: [usize; 3] = [2_047, 8_191, 32_767];

pub fn measure(random: &mut Random) -> Result<(), &'static str> {
    report::head("microseconds for a run of 80 00 n times and A0");
    for times in WITH_THE_ORIGINAL {
        let visits = 1 << (times + 2);
        let case = Case::new(image(times), &[0], visits, random).ok_or("the family's visits")?;
        check::running(&case)?;
        let name = format!("n = {times}, {} visits", case.visits);
        report::line(&name, clock::measure(&[&[case]], rows::running())[0]);
    }
    for times in WITHOUT {
        let image = image(times);
        check::running_alone(&image)?;
        let measured = clock::measure(&[&[image]], rows::running_alone())[0];
        report::line(&format!("n = {times}"), measured);
    }
    Ok(())
}

fn image(times: usize) -> Vec<u8> {
    let mut image = [0x80, 0x00].repeat(times);
    image.push(0xA0);
    image
}
