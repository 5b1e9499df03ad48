package recorder;

import java.lang.classfile.ClassModel;
import java.lang.classfile.CodeElement;
import java.lang.classfile.MethodModel;
import java.lang.classfile.instruction.InvokeDynamicInstruction;
import java.lang.classfile.instruction.InvokeInstruction;
import java.lang.constant.ConstantDesc;
import java.lang.constant.DirectMethodHandleDesc;
import java.util.HashMap;
import java.util.Map;
import java.util.Set;
import java.util.TreeSet;

/** Finds the method that a lambda is for: the only method of the application that its body calls. */
final class Lambdas {
    private static final int DEPTH = 4;

    private final Map<String, MethodModel> bodies = new HashMap<>();

    Lambdas(ClassModel model) {
        for (MethodModel it : model.methods())
            if (isLambda(it.methodName().stringValue())) bodies.put(it.methodName().stringValue() + it.methodType().stringValue(), it);
    }

    private static boolean isLambda(String name) {
        return name.startsWith("lambda$");
    }

    /** Returns the name of a method, or for a lambda that of the method around it. */
    static String outer(MethodModel method) {
        String name = method.methodName().stringValue();
        return isLambda(name) ? name.substring("lambda$".length(), Math.max(name.lastIndexOf('$'), "lambda$".length())) : name;
    }

    /** Returns the method that this lambda or method reference is for, or nothing. */
    String method(InvokeDynamicInstruction made) {
        Set<String> called = new TreeSet<>();
        collect(made, called, DEPTH);
        return called.size() == 1 ? called.iterator().next() : "";
    }

    private void collect(InvokeDynamicInstruction made, Set<String> called, int depth) {
        for (ConstantDesc arg : made.bootstrapArgs())
            if (arg instanceof DirectMethodHandleDesc it && isOwn(it.owner().descriptorString())) {
                MethodModel body = bodies.get(it.methodName() + it.lookupDescriptor());
                if (body == null) called.add(it.methodName());
                else if (depth > 0) collect(body, called, depth - 1);
            }
    }

    private void collect(MethodModel body, Set<String> called, int depth) {
        if (body.code().isEmpty()) return;
        for (CodeElement element : body.code().get()) switch (element) {
            case InvokeInstruction it when isOwn(it.owner().asSymbol().descriptorString()) -> called.add(it.name().stringValue());
            case InvokeDynamicInstruction it -> collect(it, called, depth);
            default -> { }
        }
    }

    private static boolean isOwn(String descriptor) {
        return !descriptor.startsWith("Ljava/") && !descriptor.startsWith("Ljdk/");
    }
}
