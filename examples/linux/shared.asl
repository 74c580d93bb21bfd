// A table for QEMU's machine pc, which takes the place of the emulator's own: two events whose handlers change bytes that firmware and OS share.
// The kernel takes it where the names of the maker and of the table are those of the emulator's, and its revision is higher.
DefinitionBlock ("", "DSDT", 2, "BOCHS ", "BXPC    ", 0x00001000)
{
    OperationRegion (SHMM, SystemMemory, 0x1F000000, 0x10)
    Field (SHMM, ByteAcc, Lock, Preserve)
    {
        CNTR, 8,
        FLAG, 4,
        WIDE, 12,
        TEMP, 16
    }

    Scope (\_SB)
    {
        Device (DEV0)
        {
            Name (_HID, "OWN00001")
        }
    }

    Scope (\_GPE)
    {
        // A device was added to the bus.
        Method (_E01, 0, Serialized)
        {
            Acquire (\_GL, 0xFFFF)
            CNTR++
            WIDE = 0x0234
            Release (\_GL)
            FLAG = 0x05
            Local0 = CNTR
            Notify (\_SB.DEV0, 0x80)
        }

        // Memory was added.
        Method (_E03, 0, Serialized)
        {
            Local0 = TEMP
            TEMP = 0x0BB8
            Notify (\_SB.DEV0, 0x81)
        }
    }
}
