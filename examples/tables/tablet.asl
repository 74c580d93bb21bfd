// A tablet: hardware-reduced, with no general purpose event. Its buttons and its sensor are pins of a GPIO controller.
DefinitionBlock ("", "DSDT", 2, "OWN", "TABLET", 0x00000001)
{
    Scope (\_SB)
    {
        Device (GPI0)
        {
            Name (_HID, "OWNG0001")

            Name (_AEI, ResourceTemplate ()
            {
                GpioInt (Edge, ActiveBoth, Exclusive, PullUp, 0x0000, "\\_SB.GPI0", 0x00, ResourceConsumer, , ) { 0x0006 }
                GpioInt (Level, ActiveLow, Exclusive, PullDefault, 0x0000, "\\_SB.GPI0", 0x00, ResourceConsumer, , ) { 0x0018 }
                GpioInt (Edge, ActiveLow, Exclusive, PullDefault, 0x0000, "\\_SB.GPI0", 0x00, ResourceConsumer, , ) { 0x0030 }
                GpioInt (Edge, ActiveLow, Exclusive, PullDefault, 0x0000, "\\_SB.GPI0", 0x00, ResourceConsumer, , ) { 0x0140 }
            })

            Method (_E06, 0, NotSerialized)
            {
                Notify (\_SB.PWRB, 0x80)
            }

            Method (_L18, 0, NotSerialized)
            {
                Notify (\_SB.SENS, 0x80)
            }

            Method (_EVT, 1, Serialized)
            {
                Switch (ToInteger (Arg0))
                {
                    Case (0x30)
                    {
                        Notify (\_SB.VOLB, 0x80)
                    }
                    Case (0x0140)
                    {
                        Notify (\_SB.VOLB, 0x81)
                    }
                }
            }
        }

        Device (PWRB)
        {
            Name (_HID, EisaId ("PNP0C0C"))
        }

        Device (SENS)
        {
            Name (_HID, "OWNS0001")
        }

        Device (VOLB)
        {
            Name (_HID, "OWNV0001")
        }
    }
}
