package nrmi;

/** Stands for the built-in class that a remote call throws where it meets a fault. It isn't loaded. */
public class RemoteFault extends RuntimeException {
}
