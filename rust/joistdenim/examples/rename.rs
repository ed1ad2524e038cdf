fn main() -> Result<(), joistdenim::Refusal> {
    let mut dest = [0; joistdenim::MAX_LEN];
    let length = joistdenim::change_prefix(b"A0", b"A", b"C", &mut dest)?;
    println!("{}", String::from_utf8_lossy(&dest[..length]));
    Ok(())
}
