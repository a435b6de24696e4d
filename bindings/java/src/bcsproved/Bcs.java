package bcsproved;

import java.lang.annotation.ElementType;
import java.lang.annotation.Retention;
import java.lang.annotation.RetentionPolicy;
import java.lang.annotation.Target;

/**
 * The name that a registry has for a component of a record, for the property of a bean with this getter, or, at a record, for the
 * variant that it is. The names of a tuple's elements are "0", "1" and so on.
 */
@Retention(RetentionPolicy.RUNTIME)
@Target({ElementType.RECORD_COMPONENT, ElementType.METHOD, ElementType.TYPE})
public @interface Bcs {
    String value();
}
