package java.lang;

public class VirtualMachineError extends Error {
    public VirtualMachineError() {}
    public VirtualMachineError(String message) {}
    public VirtualMachineError(String message, Throwable cause) {}
}
