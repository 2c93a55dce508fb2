use second::isa::{Instruction, MmioAddress};
use second::{show, Refusal};

#[test]
fn bytes_are_two_digits_each() {
    assert_eq!(show::bytes(&[]), "-");
    assert_eq!(show::bytes(&[0x00, 0x0a, 0xff]), "000aff");
}

#[test]
fn refusals_show_their_number() {
    assert_eq!(show::answer(Ok("length 1".to_string())), "length 1");
    assert_eq!(show::answer(Err(Refusal::NotOnFamily)), "refused 11");
}

#[test]
fn immediates_keep_their_width() {
    assert_eq!(show::instruction(Instruction::AddrLo(0x12)), "addrlo 0012");
    let addr = Instruction::Addr(MmioAddress(0x10_1600));
    assert_eq!(show::instruction(addr), "addr 00101600");
}
