//! What a step may do with services of the peer.

use super::{bad_line, handle, live, one, reg_req, Registration};
use crate::generate::{messages, Generator};
use crate::lines::Call;
use crate::peer::MAX_PEERS;
use crate::{build, wire};

impl Generator {
    /// A registration of the peer, if there is one.
    fn pick_peer(&mut self) -> Option<Registration> {
        self.random.pick_any(&live(&self.host.state))
    }

    /// A channel that is ready, if one is.
    fn ready_channel(&mut self) -> Option<u64> {
        let channels = (0..).zip(&self.host.state.channels);
        let ready = channels.filter(|(_, channel)| channel.ready);
        let ready: Vec<u64> = ready.map(|(number, _)| number).collect();
        self.random.pick_any(&ready)
    }

    /// The peer registers a service, or tries to.
    pub(in crate::generate) fn peer_register(&mut self) {
        let Some(channel) = self.ready_channel() else {
            return self.make_ready();
        };
        let message = reg_req(&mut self.random, &self.host.state, channel);
        self.receive(channel, message);
    }

    fn make_ready(&mut self) {
        let channel = messages::channel(&mut self.random);
        self.receive(channel, build::init_req(1, 0));
    }

    /// The peer registers all that it may on a channel, and one more.
    pub(in crate::generate) fn peer_fill(&mut self) {
        let Some(channel) = self.ready_channel() else {
            return self.make_ready();
        };
        for (place, id) in self.state().ids.listed().to_vec().iter().enumerate() {
            let here = &self.state().peers[channel as usize];
            if here.has(place) || here.count() == MAX_PEERS {
                continue;
            }
            let any = self.random.next() >> 1;
            let few = self.random.below(40);
            let handle = self.random.pick(&[few, few, any]);
            self.receive(channel, build::reg_req(handle, id.major, 0, &id.bytes()));
        }
        self.peer_register();
    }

    /// Data under a handle of the peer, half of it shown before; now and then
    /// shown on another channel, or damaged.
    pub(in crate::generate) fn peer_data(&mut self) {
        let Some(peer) = self.pick_peer() else {
            return self.peer_register();
        };
        let data = messages::host_data(&mut self.random);
        let message = build::data(peer.handle, &data);
        if self.random.once_in(2) {
            self.call(Call::Show(peer.channel, message.clone()));
        }
        if self.random.once_in(10) {
            let other = self.random.pick(&[0, 1, 2, 3, 4, u64::MAX]);
            self.call(Call::Show(other, message.clone()));
        }
        if self.random.once_in(20) {
            let mut damaged = message.clone();
            match self.random.below(3) {
                0 => damaged.push(0),
                1 => damaged[7] = damaged[7].wrapping_sub(1),
                _ => damaged[3] = self.random.pick(&[0, 1, 2, 3, 11]),
            }
            self.call(Call::Show(peer.channel, damaged));
        }
        self.receive(peer.channel, message);
    }

    /// What uses a handle after its registration ended.
    fn use_ended(&mut self, peer: Registration) {
        let data = messages::host_data(&mut self.random);
        let message = match self.random.below(4) {
            0 | 1 => build::data(peer.handle, &data),
            2 => build::of_handle(wire::UNREG, peer.handle),
            _ => messages::registration(&mut self.random, peer.handle),
        };
        if self.random.once_in(4) {
            self.call(Call::Show(peer.channel, message.clone()));
        }
        self.receive(peer.channel, message);
    }

    /// The peer ends a registration, or names it on another channel.
    pub(in crate::generate) fn peer_unreg(&mut self) {
        let Some(peer) = self.pick_peer() else {
            return self.peer_register();
        };
        let message = build::of_handle(wire::UNREG, peer.handle);
        if self.random.once_in(4) {
            let channel = self.ready_channel().unwrap_or(peer.channel);
            return self.receive(channel, message);
        }
        self.receive(peer.channel, message);
        if self.random.once_in(2) {
            self.use_ended(peer);
        }
    }

    /// REG_ACK, REG_NACK, UNREG or DATA under any handle that lacks the top bit.
    pub(in crate::generate) fn peer_stray(&mut self) {
        let Some(channel) = self.ready_channel() else {
            return self.make_ready();
        };
        let handle = handle(&mut self.random, &self.host.state);
        let message = match self.random.below(4) {
            0 | 1 => messages::registration(&mut self.random, handle),
            2 => build::of_handle(wire::UNREG, handle),
            _ => build::data(handle, &messages::host_data(&mut self.random)),
        };
        self.receive(channel, message);
    }

    /// Drops the registrations of a channel; half of the time one of them is
    /// used after that.
    pub(in crate::generate) fn peer_drop(&mut self) {
        let Some(peer) = self.pick_peer() else {
            return self.peer_fill();
        };
        let channel = peer.channel;
        match self.random.below(5) {
            0 | 1 => self.receive(channel, build::init_req(1, 0)),
            2 => {
                let major = self.random.pick(&[0, 2, 0xffff]);
                self.receive(channel, build::init_req(major, 0));
            }
            3 => self.call(Call::Close(channel)),
            _ => {
                let message = messages::damaged(&mut self.random, &self.host.state, channel);
                self.receive(channel, message);
            }
        }
        if self.random.once_in(2) {
            if !self.state().channels[channel as usize].ready {
                self.receive(channel, build::init_req(1, 0));
            }
            self.use_ended(peer);
        }
    }

    /// A line for an id among the calls: mostly a bad line, else an id for the
    /// next setup.
    pub(in crate::generate) fn odd_peer_line(&mut self) {
        if self.random.once_in(20) {
            let id = one(&mut self.random);
            return self.call(Call::Peer(id));
        }
        let line = bad_line(&mut self.random);
        self.raw(&line);
    }
}
