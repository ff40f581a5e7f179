import java.io.File;
import java.lang.invoke.MethodHandle;
import java.lang.invoke.MethodHandles;
import java.lang.invoke.MethodType;
import java.lang.reflect.Field;
import java.lang.reflect.Method;
import java.lang.reflect.Modifier;
import java.util.ArrayList;
import java.util.Arrays;
import java.util.List;
import java.util.Set;
import java.util.TreeSet;

/** Prints what the running JVM says of the classes in a folder: objects' fields, resolution (JVMS 5.4.3), selection. */
public class Relations {
    static MethodHandles.Lookup all;
    static List<Class<?>> classes = new ArrayList<>();
    /** Fields and methods that some class declares: name, then its type. */
    static Set<String> fields = new TreeSet<>(), methods = new TreeSet<>();

    public static void main(String[] folder) throws Throwable {
        // A lookup without access checks, as the machine has none.
        Field trusted = MethodHandles.Lookup.class.getDeclaredField("IMPL_LOOKUP");
        trusted.setAccessible(true);
        all = (MethodHandles.Lookup) trusted.get(null);
        String[] names = new File(folder[0]).list();
        Arrays.sort(names);
        for (String name : names) {
            if (name.endsWith(".class")) {
                classes.add(Class.forName(name.substring(0, name.length() - 6)));
            }
        }
        for (Class<?> c : classes) {
            for (Field f : c.getDeclaredFields()) {
                fields.add(f.getName() + " " + f.getType().descriptorString());
            }
            for (Method m : c.getDeclaredMethods()) {
                methods.add(m.getName() + " " + type(m).toMethodDescriptorString());
            }
        }
        for (Class<?> c : classes) {
            System.out.println("layout " + c.getName() + layout(c));
            for (String member : fields) {
                String[] words = member.split(" ");
                System.out.println("field " + c.getName() + " " + member + " " + field(c, words[0], words[1]));
            }
            for (String member : methods) {
                String[] words = member.split(" ");
                System.out.println("method " + c.getName() + " " + member + " " + method(c, words[0], words[1]));
                String selected = selected(c, words[0], words[1]);
                if (selected != null) {
                    System.out.println("select " + c.getName() + " " + member + " " + selected);
                }
            }
        }
    }

    static MethodType type(Method m) {
        return MethodType.methodType(m.getReturnType(), m.getParameterTypes());
    }

    static MethodType type(String descriptor) {
        return MethodType.fromMethodDescriptorString(descriptor, Relations.class.getClassLoader());
    }

    static String layout(Class<?> c) {
        String above = c.getSuperclass() == null ? "" : layout(c.getSuperclass());
        StringBuilder own = new StringBuilder();
        for (Field f : c.getDeclaredFields()) {
            if (!Modifier.isStatic(f.getModifiers())) {
                own.append(" " + c.getName() + "." + f.getName() + ":" + f.getType().descriptorString());
            }
        }
        return above + own;
    }

    static String field(Class<?> c, String name, String descriptor) throws Throwable {
        Class<?> type = type("()" + descriptor).returnType();
        String found = "none";
        try {
            found = declarer(all.findStaticGetter(c, name, type)) + " static";
        } catch (ReflectiveOperationException e) {
            // no such field, or an instance field
        }
        try {
            found = declarer(all.findGetter(c, name, type));
        } catch (ReflectiveOperationException e) {
            // no such field, or a static one
        }
        return found;
    }

    /**
     * The class in which a method is found; where it is found in a superinterface, which of them is left to the machine
     * (JVMS 5.4.3.3), and a handle on it names the class that was asked.
     */
    static String method(Class<?> c, String name, String descriptor) throws Throwable {
        String found = "none";
        try {
            found = declarer(all.findStatic(c, name, type(descriptor))) + " static";
        } catch (ReflectiveOperationException e) {
            // no such method, or one of objects
        }
        try {
            Class<?> declarer = Class.forName(declarer(all.findVirtual(c, name, type(descriptor))));
            found = declarer == c && declares(c, name, descriptor, 0) || !declarer.isInterface() && declarer != c
                ? declarer.getName() : "an interface";
        } catch (ReflectiveOperationException e) {
            // no such method, or a static one
        }
        return found;
    }

    static String declarer(MethodHandle handle) {
        return all.revealDirect(handle).getDeclaringClass().getName();
    }

    /**
     * The class whose method runs on an object of a class, where a class or interface above it declares such a method for
     * objects that isn't private. Each method returns the number in the name of the class that declares it.
     */
    static String selected(Class<?> c, String name, String descriptor) throws Throwable {
        if (Modifier.isAbstract(c.getModifiers())) {
            return null;
        }
        for (Class<?> above : classes) {
            if (above.isAssignableFrom(c) && declares(above, name, descriptor, Modifier.STATIC | Modifier.PRIVATE)) {
                MethodHandle handle = all.findVirtual(above, name, type(descriptor));
                Object object = c.getDeclaredConstructor().newInstance();
                List<Object> arguments = new ArrayList<>();
                arguments.add(object);
                for (Class<?> parameter : type(descriptor).parameterList()) {
                    arguments.add(parameter == int.class ? (Object) 0 : parameter == long.class ? (Object) 0L : null);
                }
                try {
                    return "C" + handle.invokeWithArguments(arguments);
                } catch (AbstractMethodError e) {
                    return "abstract";
                }
            }
        }
        return null;
    }

    static boolean declares(Class<?> c, String name, String descriptor, int hidden) {
        for (Method m : c.getDeclaredMethods()) {
            if (m.getName().equals(name) && type(m).toMethodDescriptorString().equals(descriptor)) {
                return (m.getModifiers() & hidden) == 0;
            }
        }
        return false;
    }
}
