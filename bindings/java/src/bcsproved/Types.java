package bcsproved;

import java.lang.invoke.MethodType;
import java.lang.reflect.GenericArrayType;
import java.lang.reflect.ParameterizedType;
import java.lang.reflect.Type;
import java.lang.reflect.TypeVariable;
import java.lang.reflect.WildcardType;
import java.math.BigInteger;
import java.nio.ByteBuffer;
import java.util.List;
import java.util.Map;
import java.util.Set;

/** What Java types are. */
final class Types {
    private static final Set<Class<?>> INTEGERS = Set.of(byte.class, Byte.class, short.class, Short.class, int.class, Integer.class,
            long.class, Long.class, BigInteger.class);

    private Types() {}

    /** The class of a type; of a wildcard or a variable that of its bound. */
    static Class<?> raw(Type type) {
        if (type instanceof Class<?> raw) {
            return raw;
        }
        if (type instanceof ParameterizedType generic) {
            return (Class<?>) generic.getRawType();
        }
        if (type instanceof GenericArrayType array) {
            return raw(array.getGenericComponentType()).arrayType();
        }
        if (type instanceof WildcardType wildcard) {
            return raw(wildcard.getUpperBounds()[0]);
        }
        return raw(((TypeVariable<?>) type).getBounds()[0]);
    }

    /** The class of objects with the values of this class, which may be a primitive. */
    static Class<?> boxed(Class<?> type) {
        return MethodType.methodType(type).wrap().returnType();
    }

    /** A wildcard is its bound. */
    static Type bound(Type type) {
        return type instanceof WildcardType wildcard ? wildcard.getUpperBounds()[0] : type;
    }

    /** An argument of this generic class or interface; Object if the type doesn't say. */
    static Type argument(Type type, Class<?> generic, int index) {
        boolean isKnown = type instanceof ParameterizedType parameterized && parameterized.getRawType() == generic;
        return isKnown ? bound(((ParameterizedType) type).getActualTypeArguments()[index]) : Object.class;
    }

    /** The type of a list's or an array's elements. */
    static Type element(Type type) {
        if (type instanceof GenericArrayType array) {
            return array.getGenericComponentType();
        }
        return raw(type).isArray() ? raw(type).componentType() : argument(type, List.class, 0);
    }

    static boolean isInteger(Type type) {
        return type instanceof Class<?> && INTEGERS.contains(type);
    }

    static boolean isList(Type type) {
        return List.class.isAssignableFrom(raw(type));
    }

    static boolean isSequence(Type type) {
        return isList(type) || raw(type).isArray();
    }

    static boolean isMap(Type type) {
        return Map.class.isAssignableFrom(raw(type));
    }

    /** Whether values of this type are bytes, and never a list of small numbers. */
    static boolean isBytes(Type type) {
        return type == byte[].class || ByteBuffer.class.isAssignableFrom(raw(type)) || type == Hex.class;
    }

    /** The name of a type, in messages. */
    static String name(Type type) {
        return type.getTypeName().replaceAll("\\bjava\\.(lang|util|math|nio)\\.", "");
    }
}
