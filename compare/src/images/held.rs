//! The calls on images, held to the second program, and what a machine made of an image is.

use super::machines::other_buffers;
use crate::lent::{
    differences, hex, library_image_read, library_image_size, library_image_write, second_image,
    second_image_read, second_image_write, state_text, Lent,
};
use crate::random::Random;
use crate::tally::{Call, Tally};

pub fn result_text(result: u64) -> String {
    format!("answer {} with {}", result & 0xFFFF, result >> 16)
}

/// The size of a machine's image.
pub fn check_size(lent: &Lent, tally: &mut Tally) -> Result<(), String> {
    let mut library = lent.clone();
    let given = library_image_size(&mut library);
    let expected = second_image(lent).map_or(8, |image| (image.len() as u64) << 16);
    if given != expected || library != *lent {
        return Err(format!(
            "size of an image\nlibrary: {}, second program: {}{}\n{}",
            result_text(given),
            result_text(expected),
            if library == *lent { "" } else { "; the library changes bytes" },
            state_text(lent)
        ));
    }
    tally.count(Call::ImageSize, given & 0xFFFF);
    Ok(())
}

/// Writing a machine's image to a room of random bytes; the result and the room.
pub fn check_write(
    lent: &Lent,
    room: usize,
    random: &mut Random,
    tally: &mut Tally,
) -> Result<(u64, Vec<u8>), String> {
    let before = random.bytes(room);
    let mut library = lent.clone();
    let mut library_room = before.clone();
    let given = library_image_write(&mut library, &mut library_room);
    let mut second_room = before.clone();
    let expected = second_image_write(lent, &mut second_room);
    if given != expected || library != *lent || library_room != second_room {
        return Err(format!(
            "image written to {room} bytes\nlibrary: {}, second program: {}{}\n{}{}",
            result_text(given),
            result_text(expected),
            if library == *lent { "" } else { "; the library changes the machine" },
            differences("image", &before, &library_room, &second_room),
            state_text(lent)
        ));
    }
    tally.count(Call::ImageWrite, given & 0xFFFF);
    if given & 0xFFFF == 0 {
        tally.image(0, library_room[0]);
    }
    Ok((given, library_room))
}

/// Reading an image; the result and what is left.
pub fn check_read(image: &[u8], before: &Lent, tally: &mut Tally) -> Result<(u64, Lent), String> {
    let mut library = before.clone();
    let mut library_image = image.to_vec();
    let given = library_image_read(&mut library_image, &mut library);
    let mut second = before.clone();
    let expected = second_image_read(image, &mut second);
    if given != expected || library != second || library_image != image {
        return Err(format!(
            "image read from {} bytes: {}\ninto {}, {}, {} bytes\nlibrary: {}, second program: \
             {}\n{}{}{}{}",
            image.len(),
            hex(image),
            before.machine.len(),
            before.registers.len(),
            before.marks.len(),
            result_text(given),
            result_text(expected),
            differences("image", image, &library_image, image),
            differences("machine block", &before.machine, &library.machine, &second.machine),
            differences("registers", &before.registers, &library.registers, &second.registers),
            differences("marks", &before.marks, &library.marks, &second.marks),
        ));
    }
    tally.count(Call::ImageRead, given & 0xFFFF);
    if given == 0 {
        tally.image(1, image[0]);
    }
    Ok((given, second))
}

/// The image of a machine, in a room of its size.
pub fn written(lent: &Lent, random: &mut Random, tally: &mut Tally) -> Result<Vec<u8>, String> {
    check_size(lent, tally)?;
    let length = second_image(lent).ok_or("the machine is at fault")?.len();
    check_write(lent, length, random, tally).map(|(_, image)| image)
}

/// The machine made of an image: the same but for unmarked bytes, with the same image.
pub fn check_handed_over(
    lent: &Lent,
    image: &[u8],
    random: &mut Random,
    tally: &mut Tally,
) -> Result<(), String> {
    let before = other_buffers(random, lent.machine().mlen);
    let (given, made) = check_read(image, &before, tally)?;
    let kept = (0..made.registers.len()).all(|at| {
        let from = if lent.marks[at] == 1 { lent } else { &before };
        made.registers[at] == from.registers[at]
    });
    if given != 0 || made.machine != lent.machine || made.marks != lent.marks || !kept {
        return Err(format!("another machine is made of the image\n{}", state_text(lent)));
    }
    let (_, again) = check_write(&made, image.len(), random, tally)?;
    if again != image {
        return Err(format!("its image is another one\n{}", state_text(lent)));
    }
    Ok(())
}
