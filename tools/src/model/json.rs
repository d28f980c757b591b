//! The tables of a page as JSON. Times are seconds.

use super::*;
use crate::json::{float, Object};
use crate::library::header::{VERSION_MAJOR, VERSION_MINOR, VERSION_PATCH};
use crate::messages::{told, HEALTH, LEVEL, MODE};

impl Tables {
    pub fn json(&self, out: &mut Vec<u8>) {
        let mut page = Object::new(out);
        self.summary(&mut page);
        page.objects("nodes", self.heard(), |object, (id, node)| {
            node.json(object, id)
        });
        page.object("timeline", |object| self.timeline(object));
        page.object("load", |object| self.bus_load(object));
        page.objects(
            "numbers",
            self.refusals.numbers(),
            |object, (number, count)| {
                object.number("number", number);
                object.text("sentence", sentence(number));
                object.number("count", count);
            },
        );
        page.array("hints", self.refusals.hints(), |out, hint| {
            text::json(out, hint.as_bytes())
        });
        self.groups(&mut page, "refusals", &self.refusals);
        self.groups(&mut page, "not_read", &self.not_read);
        page.objects("left_out", &self.left_out, |object, (reason, count)| {
            object.text("reason", reason);
            object.number("count", *count);
        });
        self.messages(&mut page);
        page.end();
    }

    fn summary(&self, page: &mut Object) {
        page.text(
            "version",
            format!("{VERSION_MAJOR}.{VERSION_MINOR}.{VERSION_PATCH}"),
        );
        page.letters("source", self.source.as_bytes());
        match self.own {
            Own::Node(node) => page.number("own", node),
            Own::Every => page.null("own"),
        }
        page.array("notes", &self.notes, |out, note| {
            text::json(out, note.as_bytes())
        });
        page.array("interfaces", &self.interfaces, |out, name| {
            text::json(out, name.as_bytes())
        });
        page.number("lines", self.lines);
        page.number("transfers", self.transfers);
        page.number("taken", self.taken);
        page.number("refused", self.refusals.all());
        page.time("first", self.first);
        page.time("last", self.first.map(|_| self.last));
    }

    /// Nodes with an ID.
    fn heard(&self) -> impl Iterator<Item = (usize, &Node)> {
        let nodes = self.nodes.iter().enumerate().skip(1);
        nodes.filter(|(_, node)| node.transfers > 0)
    }

    fn stream(&self, object: &mut Object, stream: &Stream) {
        let mut name = Vec::new();
        self.types.name(stream, &mut name);
        object.text("type", name);
        object.number("source", stream.source);
        match stream.transfer_type.is_service() {
            true => object.number("destination", stream.destination),
            false => object.null("destination"),
        }
    }

    fn timeline(&self, object: &mut Object) {
        object.time("origin", Some(self.columns.origin));
        object.time("width", Some(self.columns.width));
        object.number("beyond", self.streams_beyond);
        let mut rows: Vec<_> = self.streams.iter().collect();
        rows.sort_by_key(|(stream, _)| {
            (
                stream.source,
                stream.transfer_type,
                stream.type_id,
                stream.destination,
            )
        });
        object.objects("rows", rows, |object, (stream, row)| {
            self.stream(object, stream);
            object.number("count", row.count);
            object.time("first", Some(row.first));
            object.time("last", Some(row.last));
            // place and count of each column that has some
            let columns = row
                .columns
                .iter()
                .enumerate()
                .filter(|(_, count)| **count > 0);
            object.array("columns", columns, |out, (place, count)| {
                put!(out, "{place},{count}")
            });
        });
    }

    fn bus_load(&self, object: &mut Object) {
        object.time("origin", Some(self.spans.origin));
        object.time("width", Some(self.spans.width));
        object.number("bit_rate", self.bit_rate);
        let used = self
            .load
            .iter()
            .filter(|load| !load.is_empty())
            .count()
            .max(1);
        object.objects("interfaces", &self.load[..used], |object, load| {
            object.array("frames", load, |out, load| put!(out, "{}", load.frames));
            object.array("bits", load, |out, load| put!(out, "{}", load.bits));
        });
    }

    fn groups(&self, page: &mut Object, name: &str, refusals: &Refusals) {
        page.objects(name, refusals.groups(), |object, (group, seen)| {
            object.number("number", group.number);
            object.text("sentence", sentence(group.number));
            object.number("count", seen.count);
            object.time("first", seen.first);
            object.time("last", seen.last);
            if let Some(stream) = &group.stream {
                self.stream(object, stream);
            }
        });
        page.number(&format!("{name}_beyond"), refusals.beyond());
    }

    fn messages(&self, page: &mut Object) {
        page.objects("batteries", &self.batteries, |object, battery| {
            battery.json(object)
        });
        page.number("batteries_beyond", self.batteries_beyond);
        page.objects("log_messages", &self.log_messages, |object, one| {
            object.time("time", Some(one.time));
            object.number("node", one.node);
            object.text("level", told(one.level, LEVEL));
            object.letters("source", &one.source);
            object.letters("text", &one.text);
        });
        page.number("log_message_count", self.log_message_count);
        page.objects("keys", &self.keys, |object, ((node, name), key)| {
            object.number("node", *node);
            object.letters("key", name);
            float(object.field("value"), key.value);
            object.number("count", key.count);
            object.time("last", Some(key.last));
        });
        page.number("keys_beyond", self.keys_beyond);
    }
}

impl Node {
    fn json(&self, object: &mut Object, id: usize) {
        object.number("id", id as u64);
        object.number("transfers", self.transfers);
        object.time("first", Some(self.first));
        object.time("last", Some(self.last));
        if let Some(status) = &self.status {
            object.number("uptime", status.uptime);
            object.text("health", told(status.health, HEALTH));
            object.text("mode", told(status.mode, MODE));
            object.number("vendor_code", status.vendor_code);
        }
        if let Some(info) = &self.info {
            object.text("name", &info.name);
            object.text("software", &info.software);
            object.text("hardware", &info.hardware);
            object.hex("unique_id", &info.unique_id);
        }
    }
}

impl Battery {
    fn json(&self, object: &mut Object) {
        object.number("node", self.node);
        object.number("battery_id", self.battery_id);
        object.letters("model_name", &self.model_name);
        object.number("count", self.count);
        object.number("samples", self.samples);
        let range = |out: &mut Vec<u8>, range: Range| {
            out.push(b'[');
            float(out, range.low);
            out.push(b',');
            float(out, range.high);
            out.push(b']');
        };
        object.array("time", &self.points, |out, point| {
            text::seconds(out, point.time)
        });
        object.array("voltage", &self.points, |out, point| {
            range(out, point.voltage)
        });
        object.array("temperature", &self.points, |out, point| {
            range(out, point.temperature)
        });
    }
}
