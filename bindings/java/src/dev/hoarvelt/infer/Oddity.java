package dev.hoarvelt.infer;

/** What can be odd about a name. A name with one of the first two misleads whoever sees it, so a gate should refuse it. */
public enum Oddity {
    /** A control character of ASCII. */
    CONTROL,
    /** A mark of writing direction: after one, gnp.exe is shown as exe.png. */
    DIRECTION,
    /** A dot or a blank at the end of the base name, which Windows removes. */
    END,
    /** Another extension before the last, as in shell.php.jpg. Honest names have that too, such as initial.json.gz. */
    TWO_EXTENSIONS
}
