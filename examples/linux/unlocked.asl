// The same machine with a mistake: UNLK names the byte of CNTR once more, without Lock, and a handler writes there.
DefinitionBlock ("", "DSDT", 2, "BOCHS ", "BXPC    ", 0x00001000)
{
    OperationRegion (SHMM, SystemMemory, 0x1F000000, 0x10)
    Field (SHMM, ByteAcc, Lock, Preserve)
    {
        CNTR, 8,
        FLAG, 4,
        WIDE, 12,
        TEMP, 16
    }

    Field (SHMM, ByteAcc, NoLock, Preserve)
    {
        UNLK, 8
    }

    Scope (\_SB)
    {
        Device (DEV0)
        {
            Name (_HID, "OWN00001")
        }
    }

    Scope (\_GPE)
    {
        // A device was added to the bus.
        Method (_E01, 0, Serialized)
        {
            Acquire (\_GL, 0xFFFF)
            CNTR++
            WIDE = 0x0234
            Release (\_GL)
            FLAG = 0x05
            Local0 = CNTR
            Notify (\_SB.DEV0, 0x80)
        }

        // Memory was added.
        Method (_E03, 0, Serialized)
        {
            UNLK = Zero
            Local0 = TEMP
            TEMP = 0x0BB8
            Notify (\_SB.DEV0, 0x81)
        }
    }
}
