//! A video's packets, lost, doubled, late and damaged, through both receivers.

use super::Tally;
use crate::camera::{self, Answer, CReceiver, Numbers};
use crate::frame::{Format, decode};
use crate::material::{coded, damage, expect, flag, format, numbers};
use crate::random::Random;
use crate::receiver::Receiver;
use crate::rejection::check_packet;

#[derive(Clone)]
struct Packet {
    number: u64,
    key: bool,
    bytes: Vec<u8>,
}

struct Video {
    packets: Vec<Packet>,
    // What is shown after each of them.
    pictures: Vec<Vec<u8>>,
}

fn video(random: &mut Random, format: Format) -> Result<Video, String> {
    let mut video = Video {
        packets: Vec::new(),
        pictures: Vec::new(),
    };
    let mut reference = vec![0; format.pixel_count()];
    for number in 0..2 + random.below(9) {
        let key = number == 0 || random.one_in(5);
        let bytes = coded(random, format, key, &reference)?;
        reference = decode(format, key, &bytes, &reference)
            .picture
            .ok_or("a coded frame is invalid")?;
        video.packets.push(Packet { number, key, bytes });
        video.pictures.push(reference.clone());
    }
    Ok(video)
}

// What comes of a video's packets.
fn arrivals(random: &mut Random, packets: &[Packet], faithful: bool) -> Vec<Packet> {
    let mut arrivals = Vec::new();
    for packet in packets {
        if random.one_in(8) {
            continue;
        }
        arrivals.push(packet.clone());
        if random.one_in(8) {
            arrivals.push(packet.clone());
        }
        if random.one_in(8) && arrivals.len() > 1 {
            let last = arrivals.len() - 1;
            let other = random.index(last);
            arrivals.swap(last, other);
        }
    }
    if !faithful {
        for packet in &mut arrivals {
            spoil(random, packet);
        }
    }
    arrivals
}

// Now and then makes a packet another than the video's.
fn spoil(random: &mut Random, packet: &mut Packet) {
    if random.one_in(6) {
        damage(random, &mut packet.bytes);
    }
    if random.one_in(12) {
        let number = packet.number;
        packet.number = random.pick(&[
            0,
            number + 1,
            number.wrapping_sub(1),
            1 << 62,
            (1 << 62) + 1,
            u64::MAX,
        ]);
    }
    if random.one_in(20) {
        packet.key = !packet.key;
    }
}

struct Both {
    plain: Receiver,
    receiver: CReceiver,
    picture: Vec<u8>,
}

impl Both {
    fn new(random: &mut Random, format: Format, faithful: bool) -> Both {
        let mut plain = Receiver::new(format);
        if !faithful && random.one_in(4) {
            plain = Receiver {
                picture: random.bytes(format.pixel_count()),
                sure: random.one_in(2),
                next: random.below(4),
            };
        }
        let receiver = CReceiver {
            next: plain.next,
            sure: flag(random, plain.sure),
        };
        Both {
            picture: plain.picture.clone(),
            receiver,
            plain,
        }
    }

    fn receive(
        &mut self,
        random: &mut Random,
        format: Format,
        packet: &Packet,
        tally: &mut Tally,
    ) -> Result<(), String> {
        let numbers: Numbers = numbers(format);
        let before = self.receiver;
        let picture_before = self.picture.clone();
        let key = flag(random, packet.key);
        let answer = camera::receive(
            numbers,
            &mut self.receiver,
            packet.number,
            key,
            &packet.bytes,
            &mut self.picture,
        )?;
        let case = || {
            format!(
                "{format:?} receiver {before:?} picture {picture_before:?} number {} key {} bytes {:?}",
                packet.number, packet.key, packet.bytes
            )
        };
        if let Err(rejection) =
            check_packet(format.pixel_count(), self.picture.len(), packet.number)
        {
            tally.count("rejected");
            expect(answer == Answer::Rejected(rejection), || {
                format!("{}: {answer:?}, expected {rejection:?}", case())
            })?;
            return expect(
                self.receiver == before && self.picture == picture_before,
                || format!("{}: rejected and changed", case()),
            );
        }
        tally.count(if packet.number < self.plain.next {
            "late"
        } else {
            "in time"
        });
        self.plain
            .receive(format, packet.number, packet.key, &packet.bytes);
        let expected = if self.plain.sure {
            Answer::Sure
        } else {
            Answer::Unsure
        };
        tally.count(if self.plain.sure { "sure" } else { "unsure" });
        expect(answer == expected, || {
            format!("{}: {answer:?}, expected {expected:?}", case())
        })?;
        expect((self.receiver.sure != 0) == self.plain.sure, || {
            format!("{}: {:?}", case(), self.receiver)
        })?;
        expect(self.receiver.next == self.plain.next, || {
            format!(
                "{}: {:?}, expected {}",
                case(),
                self.receiver,
                self.plain.next
            )
        })?;
        expect(self.picture == self.plain.picture, || {
            format!(
                "{}: {:?}, expected {:?}",
                case(),
                self.picture,
                self.plain.picture
            )
        })
    }
}

pub fn run(random: &mut Random, tally: &mut Tally) -> Result<(), String> {
    let format = format(random);
    let faithful = random.one_in(2);
    let video = video(random, format)?;
    let mut both = Both::new(random, format, faithful);
    for packet in arrivals(random, &video.packets, faithful) {
        both.receive(random, format, &packet, tally)?;
        tally.count("packets");
        // Of a video's own packets a receiver shows only the video's pictures.
        if faithful && both.receiver.next > 0 {
            let shown = &video.pictures[both.receiver.next as usize - 1];
            expect(both.picture == *shown, || {
                format!(
                    "{format:?}: not the video's picture {}",
                    both.receiver.next - 1
                )
            })?;
        }
    }
    Ok(())
}
