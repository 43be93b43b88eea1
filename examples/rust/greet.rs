//! Reads a request from its octets, and writes the response: the length of the name in it.

use std::ptr::null_mut;

const IDL: &[u8] = b"[uuid(1a2b3c4d-0001-0002-0003-040506070809)] interface greeter { long greet([in, string] char *name); }";
const REQUEST: [u8; 16] = [4, 0, 0, 0, 0, 0, 0, 0, 4, 0, 0, 0, b'A', b'd', b'a', 0];
const OK: u32 = 0;
const SHORT: u32 = 4;
const IN: u32 = 0;
const LITTLE: u32 = 0;

/// An interface, values or a fault; nothing at first. It is neither copied nor cloned.
#[repr(C)]
struct Handle(*mut u8, usize);

#[repr(C)]
struct File(*const u8, usize, *const u8, usize);

#[link(name = "dceidl", kind = "static")]
extern "C" {
    fn dceidl_compile(files: *const File, count: usize, acf: usize, interface: &mut Handle, fault: &mut Handle) -> u32;
    fn dceidl_operation_number(interface: &mut Handle, name: *const u8, length: usize, operation: &mut u32) -> u32;
    fn dceidl_decode(interface: &mut Handle, operation: u32, side: u32, order: u32, octets: *const u8, length: usize, values: &mut Handle,
                     taken: &mut usize, fault: &mut Handle) -> u32;
    fn dceidl_read_response(request: &mut Handle, text: *const u8, length: usize, values: &mut Handle, fault: &mut Handle) -> u32;
    fn dceidl_text(values: &mut Handle, out: *mut u8, room: usize, length: &mut usize) -> u32;
    fn dceidl_encode(values: &mut Handle, order: u32, chunk: u32, out: *mut u8, room: usize, length: &mut usize, fault: &mut Handle) -> u32;
    fn dceidl_fault_line(fault: &mut Handle, out: *mut u8, room: usize, length: &mut usize) -> u32;
    fn dceidl_interface_free(interface: &mut Handle);
    fn dceidl_values_free(values: &mut Handle);
    fn dceidl_fault_free(fault: &mut Handle);
}

/// What a call writes: first with no room, to learn the length, and then with as much.
fn written(mut call: impl FnMut(*mut u8, usize, &mut usize) -> u32) -> Result<Vec<u8>, u32> {
    let (mut out, mut length) = (Vec::new(), 0);
    loop {
        match call(out.as_mut_ptr(), out.len(), &mut length) {
            OK => return Ok(out[..length].to_vec()),
            SHORT => out = vec![0; length],
            status => return Err(status),
        }
    }
}

fn need(status: u32) -> Result<(), u32> {
    if status == OK { Ok(()) } else { Err(status) }
}

fn answer(interface: &mut Handle, request: &mut Handle, response: &mut Handle, fault: &mut Handle) -> Result<(), u32> {
    let name = b"greeter.idl";
    let file = File(name.as_ptr(), name.len(), IDL.as_ptr(), IDL.len());
    let (mut greet, mut taken) = (0, 0);
    unsafe {
        need(dceidl_compile(&file, 1, 0, interface, fault))?;
        need(dceidl_operation_number(interface, b"greet".as_ptr(), 5, &mut greet))?;
        need(dceidl_decode(interface, greet, IN, LITTLE, REQUEST.as_ptr(), REQUEST.len(), request, &mut taken, fault))?;
    }
    let text = written(|out, room, length| unsafe { dceidl_text(request, out, room, length) })?;
    let text = String::from_utf8_lossy(&text).into_owned();
    print!("{text}");

    let length = text.split('"').nth(1).map_or(0, str::len);
    let reply = format!("values 2 op greet out return = {length}");
    unsafe { need(dceidl_read_response(request, reply.as_ptr(), reply.len(), response, fault))? };
    let octets = written(|out, room, length| unsafe { dceidl_encode(response, LITTLE, 1, out, room, length, fault) })?;
    println!("{}", octets.iter().map(|octet| format!("{octet:02x}")).collect::<String>());
    Ok(())
}

fn main() {
    let nothing = || Handle(null_mut(), 0);
    let (mut interface, mut request, mut response, mut fault) = (nothing(), nothing(), nothing(), nothing());
    let answered = answer(&mut interface, &mut request, &mut response, &mut fault);
    if let Err(status) = answered {
        let line = written(|out, room, length| unsafe { dceidl_fault_line(&mut fault, out, room, length) }).unwrap_or_default();
        eprintln!("status {status}: {}", String::from_utf8_lossy(&line));
    }
    unsafe {
        dceidl_fault_free(&mut fault);
        dceidl_values_free(&mut response);
        dceidl_values_free(&mut request);
        dceidl_interface_free(&mut interface);
    }
    std::process::exit(answered.is_err().into());
}
