// A laptop: a lid and a dock on general purpose events, and a battery, a charger and hot keys behind an embedded controller.
DefinitionBlock ("", "DSDT", 2, "OWN", "LAPTOP", 0x00000001)
{
    Scope (\_GPE)
    {
        Method (_L1D, 0, NotSerialized)
        {
            Local0 = \_SB.LPC0.EC0.LIDS
            Notify (\_SB.LID0, 0x80)
        }

        Method (_E0C, 0, NotSerialized)
        {
            Notify (\_SB.DOCK, Zero)
        }
    }

    Scope (\_SB)
    {
        Device (LID0)
        {
            Name (_HID, EisaId ("PNP0C0D"))
            Name (_PRW, Package (0x02) { 0x1D, 0x04 })

            Method (_LID, 0, NotSerialized)
            {
                Return (\_SB.LPC0.EC0.LIDS)
            }
        }

        Device (DOCK)
        {
            Name (_HID, "DOCK0001")
        }

        Device (LPC0)
        {
            Name (_ADR, 0x001F0000)

            Device (EC0)
            {
                Name (_HID, EisaId ("PNP0C09"))
                Name (_GPE, 0x17)

                OperationRegion (ECOR, EmbeddedControl, Zero, 0xFF)
                Field (ECOR, ByteAcc, Lock, Preserve)
                {
                    LIDS, 1,
                    ACIN, 1,
                    BATP, 1,
                    , 5,
                    HOTK, 8,
                    Offset (0x10),
                    BSTA, 8,
                    BCAP, 16,
                    BVOL, 16,
                    BSER, 128
                }

                Method (_Q20, 0, NotSerialized)
                {
                    Local0 = BSTA
                    Notify (BAT0, 0x80)
                }

                Method (_Q21, 0, NotSerialized)
                {
                    Notify (\_SB.AC0, 0x80)
                    Notify (BAT0, 0x81)
                }

                Method (_Q30, 0, NotSerialized)
                {
                    If ((HOTK == 0x04))
                    {
                        Notify (\_SB.LID0, 0x80)
                    }

                    HOTK = Zero
                }

                Device (BAT0)
                {
                    Name (_HID, EisaId ("PNP0C0A"))
                }
            }
        }

        Device (AC0)
        {
            Name (_HID, "ACPI0003")
        }
    }
}
