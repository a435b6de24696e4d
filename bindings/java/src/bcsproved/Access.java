package bcsproved;

import java.lang.reflect.AccessibleObject;
import java.lang.reflect.Constructor;
import java.lang.reflect.InvocationTargetException;
import java.lang.reflect.Method;
import java.lang.reflect.UndeclaredThrowableException;

/** Calls methods and constructors of others. What these throw is thrown. */
final class Access {
    private Access() {}

    /** Makes a member callable, also of a class that isn't public, unless its module doesn't allow that. */
    static <M extends AccessibleObject> M open(M member, Class<?> type) {
        if (!member.trySetAccessible()) {
            throw new Mismatch(Types.name(type) + " isn't accessible: make it public, or open its package to this one");
        }
        return member;
    }

    static Object call(Method method, Object on, Object... arguments) {
        try {
            return method.invoke(on, arguments);
        } catch (InvocationTargetException e) {
            throw thrown(e.getCause());
        } catch (IllegalAccessException e) {
            throw new AssertionError(e);
        }
    }

    static Object make(Constructor<?> constructor, Object... arguments) {
        try {
            return constructor.newInstance(arguments);
        } catch (InvocationTargetException e) {
            throw thrown(e.getCause());
        } catch (IllegalAccessException | InstantiationException e) {
            throw new AssertionError(e);
        }
    }

    private static RuntimeException thrown(Throwable cause) {
        if (cause instanceof Error error) {
            throw error;
        }
        return cause instanceof RuntimeException known ? known : new UndeclaredThrowableException(cause);
    }
}
