//! Tables: "a new call brings the tables by tag".

use super::channel::{Channel, OpenCommand, Port};
use super::owner::returned;
use super::writing::{write, Answer};
use super::Refusal;

impl Port {
    /// 1, 21, 24, 33, 9, 10. Answer: bytes written.
    pub fn tables(&mut self, tag: u64, tables: [&[u8]; 2], buf: &mut [u8], answer: &mut Answer) -> u32 {
        *answer = [0; 8];
        returned(self.open_with_buffer(buf).and_then(|channel| match channel.bring(tag, tables)? {
            None => Ok(()),
            // "10 still answering the command."
            Some(message) => {
                write(&message, buf, answer);
                Err(Refusal::BadFields)
            }
        }))
    }
}

impl Channel {
    /// "33 .. tables for one that isn't waiting; directly after 24." "Refusals 9 and 10 are made there in such cases":
    /// of both directions. The answer to a command with bad fields, which ends.
    fn bring(&mut self, tag: u64, tables: [&[u8]; 2]) -> Result<Option<Vec<u8>>, Refusal> {
        let place = self.place_of(tag).ok_or(Refusal::TagNotOpen)?;
        let OpenCommand { request, waiting, .. } = &self.commands[place];
        let (request, [data_out, data_in]) = (*request, waiting.clone().ok_or(Refusal::Waiting)?);
        // "9 lent table not F bytes."
        if tables.map(<[u8]>::len) != [data_out.fetch_length(), data_in.fetch_length()] {
            return Err(Refusal::TableLength);
        }
        let [out, inn] = tables;
        if data_out.bad_field(out).is_some() || data_in.bad_field(inn).is_some() {
            self.commands.remove(place);
            self.leave_with_commands();
            return Ok(Some(self.answer_with_code(&request, 0x02)));
        }
        // Its place among the others stays: its age counts from its taking.
        self.commands[place] = OpenCommand::new(request, [data_out.segment_list(out), data_in.segment_list(inn)]);
        Ok(None)
    }
}
