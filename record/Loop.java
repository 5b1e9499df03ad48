import java.lang.reflect.Constructor;
import java.lang.reflect.InvocationTargetException;
import java.lang.reflect.Method;
import java.lang.reflect.Modifier;
import java.util.Arrays;

/** Runs the main method of a class many times, each time in a thread of its own: Loop CLASS TIMES [WORD ..]. */
public class Loop {
    public static void main(String[] words) throws Exception {
        Class<?> of = Class.forName(words[0]);
        Method main = Arrays.stream(of.getDeclaredMethods()).filter(it -> it.getName().equals("main")).findFirst().orElseThrow();
        Constructor<?> made = of.getDeclaredConstructor();
        main.setAccessible(true);
        made.setAccessible(true);
        Object[] given = main.getParameterCount() == 0 ? new Object[0] : new Object[] {Arrays.copyOfRange(words, 2, words.length)};
        for (int n = 0; n < Integer.parseInt(words[1]); n++) Thread.ofPlatform().start(() -> once(main, made, given)).join();
    }

    private static void once(Method main, Constructor<?> made, Object[] given) {
        try {
            main.invoke(Modifier.isStatic(main.getModifiers()) ? null : made.newInstance(), given);
        } catch (InvocationTargetException e) {
            System.out.println("threw " + e.getCause());
        } catch (ReflectiveOperationException e) {
            System.err.println("Loop: " + e);
        }
    }
}
