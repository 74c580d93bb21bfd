// A convertible: an embedded controller with fields of several kinds, query handlers with branches, and a second controller.
DefinitionBlock ("", "DSDT", 2, "OWN", "CONVERT", 0x00000001)
{
    Name (MODE, Zero)

    Scope (\_SB)
    {
        Device (TBLT)
        {
            Name (_HID, "OWNT0001")
        }

        Device (H_EC)
        {
            Name (_HID, EisaId ("PNP0C09"))
            Name (_GPE, 0x6E)

            OperationRegion (ECF2, EmbeddedControl, Zero, 0x0100)
            Field (ECF2, ByteAcc, NoLock, Preserve)
            {
                Offset (0x04),
                ANGL, 9,
                , 3,
                TMOD, 1,
                Offset (0x20),
                FAN0, 8,
                FAN1, 8,
                Offset (0xF0),
                LAST, 64
            }

            Field (ECF2, ByteAcc, NoLock, WriteAsZeros)
            {
                Offset (0x06),
                KBDL, 3
            }

            OperationRegion (IDXR, SystemIO, 0x0930, 0x02)
            Field (IDXR, ByteAcc, NoLock, Preserve)
            {
                IDXP, 8,
                DATP, 8
            }

            IndexField (IDXP, DATP, ByteAcc, NoLock, Preserve)
            {
                XREG, 8
            }

            Method (_Q01, 0, Serialized)
            {
                Local0 = TMOD
                If ((Local0 == One))
                {
                    MODE = One
                    Notify (TBLT, 0x81)
                }
                Else
                {
                    Notify (TBLT, 0x80)
                }
            }

            Method (_Q02, 0, Serialized)
            {
                KBDL = 0x05
                FAN0 += 0x10
                FAN1 = (FAN1 - One)
                Sleep (0x0A)
                Notify (H_EC, 0x80)
            }

            Method (_QA5, 0, Serialized)
            {
                Local1 = ANGL
                XREG = 0x01
                Return (Zero)
            }
        }

        Device (EC1)
        {
            Name (_HID, EisaId ("PNP0C09"))
            Name (_UID, One)
            Name (_GPE, 0x6F)
        }
    }
}
