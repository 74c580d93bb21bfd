// A server: hardware-reduced, with a generic event device that takes its interrupts, and a byte of memory for hot plug.
DefinitionBlock ("", "DSDT", 2, "OWN", "SERVER", 0x00000001)
{
    Scope (\_SB)
    {
        OperationRegion (HPLG, SystemMemory, 0x09080000, 0x20)
        Field (HPLG, ByteAcc, NoLock, WriteAsZeros)
        {
            SLOT, 8,
            ISEN, 1,
            EJEC, 1
        }

        Device (GED0)
        {
            Name (_HID, "ACPI0013")
            Name (_UID, Zero)

            Name (_CRS, ResourceTemplate ()
            {
                Interrupt (ResourceConsumer, Edge, ActiveHigh, Exclusive, , , ) { 0x00000029 }
                Interrupt (ResourceConsumer, Level, ActiveHigh, Exclusive, , , ) { 0x0000002A }
                Interrupt (ResourceConsumer, Edge, ActiveHigh, Exclusive, , , ) { 0x00000111 }
            })

            Method (_EVT, 1, Serialized)
            {
                If ((Arg0 == 0x29))
                {
                    Notify (\_SB.PWRB, 0x80)
                }
                ElseIf ((Arg0 == 0x2A))
                {
                    SLOT = 0x03
                    Local0 = ISEN
                    Notify (\_SB.MEM0, One)
                    EJEC = One
                }
                ElseIf ((Arg0 == 0x0111))
                {
                    Notify (\_SB.ERRD, 0x80)
                }
            }
        }

        Device (PWRB)
        {
            Name (_HID, EisaId ("PNP0C0C"))
        }

        Device (MEM0)
        {
            Name (_HID, EisaId ("PNP0C80"))
        }

        Device (ERRD)
        {
            Name (_HID, EisaId ("PNP0C33"))
        }
    }
}
