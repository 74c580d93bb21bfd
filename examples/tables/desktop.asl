// A desktop: two blocks of general purpose events, fixed buttons, and bridges that wake the machine.
DefinitionBlock ("", "DSDT", 2, "OWN", "DESKTOP", 0x00000001)
{
    Scope (\_GPE)
    {
        Method (_L03, 0, NotSerialized)
        {
            Notify (\_SB.PCI0.USB0, 0x02)
        }

        Method (_L0D, 0, NotSerialized)
        {
            Notify (\_SB.PCI0.USB1, 0x02)
            Notify (\_SB.PWRB, 0x02)
        }

        Method (_E45, 0, NotSerialized)
        {
            Notify (\_SB.PCI0, Zero)
        }

        Method (_L69, 0, NotSerialized)
        {
            If (CondRefOf (\_SB.PCI0.HPLG))
            {
                \_SB.PCI0.HPLG ()
            }
        }

        Method (_E90, 0, NotSerialized)
        {
            Notify (\_SB.PCI0, One)
        }
    }

    Scope (\_SB)
    {
        Device (PWRB)
        {
            Name (_HID, EisaId ("PNP0C0C"))
        }

        Device (PCI0)
        {
            Name (_HID, EisaId ("PNP0A08"))

            Method (HPLG, 0, NotSerialized)
            {
                Notify (\_SB.PCI0, 0x01)
            }

            Device (USB0)
            {
                Name (_ADR, 0x00140000)
                Name (_PRW, Package (0x02) { 0x03, 0x03 })
            }

            Device (USB1)
            {
                Name (_ADR, 0x001D0000)
                Name (_PRW, Package (0x02) { 0x0D, 0x03 })
            }

            Device (RP01)
            {
                Name (_ADR, 0x001C0000)
                Name (_PRW, Package (0x02) { 0x09, 0x04 })
            }
        }
    }
}
