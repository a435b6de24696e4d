package bcsproved;

import java.lang.reflect.Constructor;
import java.lang.reflect.Method;
import java.lang.reflect.Modifier;
import java.util.ArrayList;
import java.util.Arrays;
import java.util.Comparator;
import java.util.List;

/** A class with a public constructor without parameters. Its properties are those with a public getter and setter. */
final class Bean extends Shape {
    private final List<Method> getters = new ArrayList<>(), setters = new ArrayList<>();
    private final Constructor<?> constructor;

    Bean(Class<?> type) {
        super(type);
        try {
            constructor = Access.open(type.getConstructor(), type);
        } catch (NoSuchMethodException e) {
            throw new AssertionError(e);
        }
        Arrays.stream(type.getMethods()).filter(Bean::isGetter).sorted(Comparator.comparing(Method::getName)).forEach(this::add);
    }

    static boolean isOne(Class<?> type) {
        boolean isPlain = !type.isInterface() && !type.isArray() && !type.isPrimitive() && !type.isEnum() && !type.isRecord();
        if (!isPlain || Modifier.isAbstract(type.getModifiers()) || type.getPackageName().startsWith("java.")) {
            return false;
        }
        boolean isMade = Arrays.stream(type.getConstructors()).anyMatch(constructor -> constructor.getParameterCount() == 0);
        return isMade && !new Bean(type).parts.isEmpty();
    }

    private static boolean isGetter(Method method) {
        Class<?> found = method.getReturnType();
        boolean isFlag = method.getName().startsWith("is") && (found == boolean.class || found == Boolean.class);
        boolean isNamed = isFlag || method.getName().startsWith("get");
        return isNamed && method.getParameterCount() == 0 && found != void.class && !method.isBridge()
                && !Modifier.isStatic(method.getModifiers());
    }

    private void add(Method getter) {
        String name = getter.getName().substring(getter.getName().startsWith("is") ? 2 : 3);
        try {
            Method setter = type.getMethod("set" + name, getter.getReturnType());
            if (!Modifier.isStatic(setter.getModifiers())) {
                Bcs tag = getter.getAnnotation(Bcs.class);
                parts.add(new Part(name, tag == null ? null : tag.value(), getter.getGenericReturnType()));
                getters.add(Access.open(getter, type));
                setters.add(Access.open(setter, type));
            }
        } catch (NoSuchMethodException e) {
            // What can only be read is made of other properties.
        }
    }

    @Override
    Object get(Object value, int part) {
        return Access.call(getters.get(part), value);
    }

    @Override
    Object make(Object[] values) {
        Object bean = Access.make(constructor);
        for (int i = 0; i < values.length; i++) {
            Access.call(setters.get(i), bean, values[i]);
        }
        return bean;
    }
}
