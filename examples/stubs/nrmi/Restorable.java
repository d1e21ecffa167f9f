package nrmi;

/** Stands for the built-in marker while programs are compiled. It isn't loaded. */
public interface Restorable extends java.io.Serializable {
}
