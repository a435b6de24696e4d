package bcsproved;

import java.lang.reflect.Constructor;
import java.lang.reflect.Method;
import java.lang.reflect.RecordComponent;
import java.util.ArrayList;
import java.util.Arrays;
import java.util.List;

/** A record, read by its accessors and made by its canonical constructor. */
final class RecordShape extends Shape {
    private final List<Method> accessors = new ArrayList<>();
    private final Constructor<?> constructor;

    RecordShape(Class<?> type) {
        super(type);
        for (RecordComponent component : type.getRecordComponents()) {
            Bcs tag = component.getAnnotation(Bcs.class);
            parts.add(new Part(component.getName(), tag == null ? null : tag.value(), component.getGenericType()));
            accessors.add(Access.open(component.getAccessor(), type));
        }
        Class<?>[] types = Arrays.stream(type.getRecordComponents()).map(RecordComponent::getType).toArray(Class<?>[]::new);
        try {
            constructor = Access.open(type.getDeclaredConstructor(types), type);
        } catch (NoSuchMethodException e) {
            throw new AssertionError(e);
        }
    }

    @Override
    Object get(Object value, int part) {
        return Access.call(accessors.get(part), value);
    }

    @Override
    Object make(Object[] values) {
        return Access.make(constructor, values);
    }
}
