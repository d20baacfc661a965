//! Importing recorded traffic.

mod capture;
mod command;
mod evening;
mod map;
mod pcap;
mod peers;
mod recording;
