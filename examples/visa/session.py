#!/usr/bin/python3
"""Talks to bench by PyVISA and by PyMeasure's SR830 driver, and checks every value that it reads.

    session.py DEVICE

DEVICE is a serial device with a fresh module behind it; examples/visa/run makes one. Exit status: 0 where every value
is the expected one, 1 at the first that is not.
"""
import struct
import sys

import pymeasure
import pyvisa
import serial
from pymeasure.instruments.srs import SR830

# How long a reply is waited for, in milliseconds, and how long where none is expected.
PATIENCE = 5000
NO_REPLY_AFTER = 500

# Bits of *ESR?: a command out of range or not allowed (refusals 2 and 3), no command (refusal 1), power on.
EXE = 16
CMD = 32
PON = 128


def check(what, got, expected):
    """Prints a value under its name; ends the session where it is not the expected one."""
    print(f"  {what:<40} {got!r}")
    if got != expected:
        sys.exit(f"visa: {what} is {got!r}, not {expected!r}")


def is_silent(module, action):
    """Whether an action waits for a reply that does not come."""
    patience = module.timeout
    module.timeout = NO_REPLY_AFTER
    try:
        action()
    except pyvisa.errors.VisaIOError as error:
        if error.error_code != pyvisa.constants.StatusCode.error_timeout:
            raise
        return True
    finally:
        module.timeout = patience
    return False


def check_silent(module, what, action):
    """Checks that an action gets no reply."""
    check(what, "no reply" if is_silent(module, action) else "a reply", "no reply")


def check_events(module, after, expected):
    """Reads the standard event register, which clears it."""
    check(f"*ESR? after {after}", int(module.query("*ESR?")), expected)


def check_set(module, setting, query, expected):
    """Sends a setting, and checks the reply to its query."""
    module.write(setting)
    check(f"{setting}, then {query}", module.query(query), expected)


def check_settings(module):
    """Settings are kept by their steps, and a refused one changes nothing."""
    print("Settings")
    check_set(module, "FREQ 12345.5", "FREQ?", "12346.0000")
    check_set(module, "PHAS 541", "PHAS?", "-179.00")
    check_set(module, "HARM 8", "HARM?", "8")
    check_set(module, "SLVL 1.001", "SLVL?", "1.002")
    check_set(module, "OFLT 10", "OFLT?", "10")
    check_events(module, "these", 0)


def check_refusals(module):
    """What is refused changes no setting and has no reply; the event register tells it."""
    print("Refused")
    check_set(module, "FREQ 102000.1", "FREQ?", "12346.0000")
    check_events(module, "FREQ 102000.1", EXE)
    check_set(module, "HARM 9", "HARM?", "8")
    check_events(module, "HARM 9", EXE)
    for query in ("OUTP? 1", "SNAP? 1,2"):
        check_silent(module, query, lambda: module.query(query))
        check_events(module, query, CMD)


def check_one_line(module):
    """Several queries of one line have a reply each, and each reply its LF."""
    print("Two queries in one line")
    check("FREQ?;HARM?, first reply", module.query("FREQ?;HARM?"), "12346.0000")
    check("second reply", module.read(), "8")


def check_points(module):
    """Points are stored by TRIG and read as words and as floats. These replies have no end, so their length is told."""
    print("Stored points")
    module.write("REST;SRAT 14;STRT;TRIG;TRIG;TRIG;PAUS")
    check("SPTS?", module.query("SPTS?"), "3")
    module.write("TRCL? 1,0,3")
    check("TRCL? 1,0,3", struct.unpack("<3I", module.read_bytes(12)), (0, 0, 0))
    module.write("TRCB? 2,1,2")
    check("TRCB? 2,1,2", struct.unpack("<2f", module.read_bytes(8)), (0.0, 0.0))
    check_silent(module, "TRCB? 1,0,4", lambda: module.query("TRCB? 1,0,4"))
    check_events(module, "TRCB? 1,0,4", EXE)


def talk_by_pyvisa(name):
    """A session by PyVISA with a fresh module."""
    print("== PyVISA")
    module = pyvisa.ResourceManager("@py").open_resource(
        name, read_termination="\n", write_termination="\n", timeout=PATIENCE
    )
    check("*IDN?", module.query("*IDN?"), "LOCKIN,M1,s/n00042,ver1.000")
    check_events(module, "the start", PON)
    check_settings(module)
    check_refusals(module)
    check_one_line(module)
    check_points(module)
    module.close()


def check_kept(driver):
    """The module is the one of the session before: it kept its settings and its points."""
    print("What the session before left")
    check("id", driver.id, "LOCKIN,M1,s/n00042,ver1.000")
    check("frequency", driver.frequency, 12346.0)
    check("phase", driver.phase, -179.0)
    check("harmonic", driver.harmonic, 8.0)
    check("sine_voltage", driver.sine_voltage, 1.002)
    check("time_constant", driver.time_constant, 1)
    check("buffer_count", driver.buffer_count, 3)


def check_property(driver, name, value, expected):
    """Sets a property of the driver, and reads it back from the module."""
    setattr(driver, name, value)
    check(f"{name} = {value!r}", getattr(driver, name), expected)


def check_properties(driver, module):
    """The driver's settings work."""
    print("Properties that work")
    driver.reset()
    check_property(driver, "frequency", 430.0, 430.0)
    check_property(driver, "frequency", 12345.5, 12346.0)
    check_property(driver, "phase", -181, 179.0)
    check_property(driver, "harmonic", 3, 3.0)
    check_property(driver, "sine_voltage", 0.5, 0.5)
    check_property(driver, "sensitivity", 1e-3, 1e-3)
    check_property(driver, "time_constant", 0.1, 0.1)
    check_property(driver, "filter_slope", 24, 24)
    check_property(driver, "reserve", "Low Noise", "Low Noise")
    check_property(driver, "input_config", "A - B", "A - B")
    check_property(driver, "input_grounding", "Ground", "Ground")
    check_property(driver, "input_coupling", "DC", "DC")
    check_property(driver, "input_notch_config", "Both", "Both")
    check_property(driver, "reference_source", "External", "External")
    check_property(driver, "reference_source", "Internal", "Internal")
    for channel in range(1, 5):
        check_property(driver, f"aux_out_{channel}", -1.25 * channel, -1.25 * channel)
    check_property(driver, "sample_frequency", 64, 64)
    check_property(driver, "sample_frequency", None, None)
    check("is_out_of_range()", driver.is_out_of_range(), False)
    check_events(module, "these", 0)


def check_not_allowed(driver, module):
    """A setting that the state does not allow: the driver raises nothing, only the event register tells it."""
    print("A setting that is not allowed now")
    check_property(driver, "time_constant", 100, 0.1)
    check_events(module, "it", EXE)


def check_storage(driver, module):
    """The driver's storage calls work but for starting it, which the driver does by FAST and STRD."""
    print("Storage")
    driver.reset_buffer()
    driver.start_buffer()
    check_events(module, "start_buffer()", CMD)
    driver.aquireOnTrigger()
    driver.trigger()
    driver.trigger()
    driver.pause_buffer()
    check("buffer_count", driver.buffer_count, 2)
    check("get_buffer() finds no end", is_silent(module, driver.get_buffer), True)
    driver.write("TRCB?1,0,2")
    check("TRCB?1,0,2 by read_bytes", struct.unpack("<2f", driver.adapter.read_bytes(8)), (0.0, 0.0))
    check_events(module, "these", 0)


def check_left_to_others(driver, module):
    """Live readings and auto functions are left to others: refused by 1, and a reading has no reply."""
    print("Left to others")
    for name in ("x", "y", "magnitude", "theta", "aux_in_1", "aux_in_2", "aux_in_3", "aux_in_4"):
        check_silent(module, name, lambda: getattr(driver, name))
        check_events(module, name, CMD)
    for name, arguments in (("auto_gain", ()), ("auto_reserve", ()), ("auto_phase", ()), ("auto_offset", ("X",))):
        getattr(driver, name)(*arguments)
        check_events(module, f"{name}()", CMD)


def check_driver_itself(driver, module):
    """What the driver itself reads or writes otherwise than its own documentation says."""
    print("Of the driver itself")
    check_property(driver, "channel1", "R", [1.0, 0.0])
    driver.set_scaling("X", 12.5)
    check("set_scaling('X', 12.5)", driver.get_scaling("X"), (12.5, 10))
    check_events(module, "it", 0)
    driver.set_scaling("X", 25, 10)
    check("set_scaling('X', 25, 10)", driver.get_scaling("X"), (12.5, 10))
    check_events(module, "it", EXE)


def talk_by_pymeasure(name):
    """A session by PyMeasure's driver with the same module."""
    print("== PyMeasure")
    driver = SR830(name, visa_library="@py", read_termination="\n", write_termination="\n", timeout=PATIENCE)
    module = driver.adapter.connection
    check_kept(driver)
    check_properties(driver, module)
    check_not_allowed(driver, module)
    check_storage(driver, module)
    check_left_to_others(driver, module)
    check_driver_itself(driver, module)
    module.close()


def main():
    """Both sessions, one after the other."""
    if len(sys.argv) != 2:
        sys.exit("usage: session.py DEVICE")
    name = f"ASRL{sys.argv[1]}::INSTR"
    print(f"PyVISA {pyvisa.__version__}, PyMeasure {pymeasure.__version__}, pySerial {serial.__version__}")
    talk_by_pyvisa(name)
    talk_by_pymeasure(name)
    print("every value is as expected")


if __name__ == "__main__":
    main()
