//! UDP sockets, read by a thread of their own so that waiting for the next tick is exact.

use std::io::ErrorKind;
use std::net::{SocketAddr, UdpSocket};
use std::sync::mpsc::{Receiver, SyncSender, sync_channel};
use std::thread;

use super::Stop;

/// More than the longest datagram, so that one that is too long is seen to be.
const LONGEST: usize = 2_048;
/// Datagrams that wait to be handled; what comes on top is lost, as on any network.
const WAITING: usize = 4_096;

/// A datagram and its sender.
pub type Packet = (Vec<u8>, SocketAddr);

/// Binds a socket.
pub fn bind(address: SocketAddr) -> Result<UdpSocket, Stop> {
    UdpSocket::bind(address).map_err(|why| Stop::Failed(format!("cannot bind {address}: {why}")))
}

/// Reads a socket for as long as the process lives.
pub fn listen(socket: &UdpSocket) -> Result<Receiver<Packet>, Stop> {
    let socket = socket.try_clone().map_err(|why| Stop::Failed(format!("socket: {why}")))?;
    let (sender, receiver) = sync_channel(WAITING);
    thread::spawn(move || read(&socket, &sender));
    Ok(receiver)
}

fn read(socket: &UdpSocket, sender: &SyncSender<Packet>) {
    let mut buffer = [0; LONGEST];
    loop {
        match socket.recv_from(&mut buffer) {
            Ok((length, from)) => {
                let _ = sender.try_send((buffer[..length].to_vec(), from));
            }
            // Nobody listens at the other side yet, or any more: datagrams to it are lost.
            Err(why) if matches!(why.kind(), ErrorKind::ConnectionRefused | ErrorKind::ConnectionReset) => {}
            Err(why) if why.kind() == ErrorKind::Interrupted => {}
            Err(_) => return,
        }
    }
}

/// Sends a datagram; one that can't be sent is lost, as on any network.
pub fn send(socket: &UdpSocket, datagram: &[u8], to: SocketAddr) {
    let _ = socket.send_to(datagram, to);
}
