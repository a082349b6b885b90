Device (D%(number)03X) {
  Name (_HID, "BNCH%(number)04X")
  Name (_UID, 0x%(number)02X)
  Name (_CRS, ResourceTemplate () {
    Memory32Fixed (ReadWrite, 0xFED%(number)02X000, 0x00001000)
    IO (Decode16, 0x03F8, 0x03F8, 0x01, 0x08)
    Interrupt (ResourceConsumer, Level, ActiveLow, Shared) { %(number)d }
  })
  OperationRegion (REGS, SystemMemory, 0xFED%(number)02X000, 0x0100)
  Field (REGS, DWordAcc, NoLock, Preserve) { CTRL, 8, STAT, 8, Offset (0x10), DATA, 32, LIMT, 16, MODE, 3 }
  Name (SAVE, Package () { 0x00, "saved", Buffer (0x04) { 0x01, 0x02, 0x03, 0x04 }, 0x12345678 })
  Method (_STA) { If ((STAT & 0x01)) { Return (0x0F) } Return (Zero) }
  Method (_PS0) { CTRL = 0x01  PAUS (0x10, 0x00) }
  Method (_PS3) { SAVE [0x00] = DATA  CTRL = 0x00 }
  Method (PAUS, 2) {
    Local0 = Zero
    While ((Local0 < Arg0)) {
      If (((STAT & 0x80) == Arg1)) { Break }
      Stall (0x0A)
      Local0++
    }
    Return ((Local0 == Arg0))
  }
  Method (XFER, 3, Serialized) {
    Name (BUFF, Buffer (0x20) {})
    CreateDWordField (BUFF, 0x04, VALU)
    If (PAUS (LIMT, 0x80)) { Return (Ones) }
    ElseIf ((Arg2 > 0x1F)) { DATA = ((Arg0 << 0x08) | (Arg1 & 0xFF)) }
    Else { DATA = DerefOf (SAVE [Arg2])  MODE = ToInteger (Arg1) }
    VALU = (DATA + 0x1234)
    Notify (D%(number)03X, 0x80)
    Return (BUFF)
  }
  Method (_DSM, 4, Serialized) {
    If ((Arg0 == ToUUID ("e5c937d0-3553-4d7a-9117-ea4d19c3434d"))) {
      If ((Arg2 == Zero)) { Return (Buffer (One) { 0x03 }) }
      Return (XFER (Arg1, Arg2, SizeOf (Arg3)))
    }
    Return (Buffer (One) { 0x00 })
  }
}
