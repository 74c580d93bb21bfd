// A laptop whose firmware and OS share bytes of memory under the Global Lock, and whose wake events are named by a method's call.
DefinitionBlock ("", "DSDT", 2, "OWN", "SHARED", 0x00000001)
{
    OperationRegion (SHMM, SystemMemory, 0x1F000000, 0x40)
    Field (SHMM, ByteAcc, Lock, Preserve)
    {
        CNTR, 8,
        FLAG, 4,
        WIDE, 12,
        Offset (0x20),
        TEMP, 16
    }

    OperationRegion (GNVS, SystemMemory, 0x1F001000, 0x2000)
    Field (GNVS, AnyAcc, NoLock, Preserve)
    {
        OSYS, 16,
        Offset (0x08),
        STAT, 8,
        Offset (0x1800),
        FARF, 8
    }

    OperationRegion (PRT0, SystemIO, 0x80, One)
    Field (PRT0, ByteAcc, NoLock, Preserve)
    {
        DBG8, 8
    }

    Method (GPRW, 2, NotSerialized)
    {
        Return (Package (0x02) { 0x00, 0x00 })
    }

    Scope (\_GPE)
    {
        Method (_E02, 0, Serialized)
        {
            Acquire (\_GL, 0xFFFF)
            CNTR += One
            WIDE = 0x0234
            Release (\_GL)
            FLAG++
            STAT = 0x5A
            DBG8 = 0x02
            Notify (\_SB.DEV0, 0x80)
        }

        Method (_L09, 0, NotSerialized)
        {
            Local0 = STAT
            While ((Local0 > Zero))
            {
                Local0--
            }

            Notify (\_SB.DEV1, 0x02)
        }

        Method (_L40, 0, NotSerialized)
        {
            FARF = One
        }
    }

    Scope (\_SB)
    {
        Device (DEV0)
        {
            Name (_HID, "OWN00001")

            Method (_PRW, 0, NotSerialized)
            {
                Return (GPRW (0x0D, 0x04))
            }
        }

        Device (DEV1)
        {
            Name (_HID, "OWN00002")

            Method (_PRW, 0, NotSerialized)
            {
                Return (GPRW (0x09, 0x04))
            }
        }
    }
}
