package recorder;

import java.lang.classfile.CodeBuilder;
import java.lang.classfile.CodeElement;
import java.lang.classfile.CodeTransform;
import java.lang.classfile.Instruction;
import java.lang.classfile.Opcode;
import java.lang.classfile.instruction.InvokeDynamicInstruction;
import java.lang.classfile.instruction.InvokeInstruction;
import java.lang.classfile.instruction.LineNumber;
import java.lang.constant.ClassDesc;
import java.lang.constant.ConstantDesc;
import java.lang.constant.ConstantDescs;
import java.lang.constant.DirectMethodHandleDesc;
import java.lang.constant.DynamicCallSiteDesc;
import java.lang.constant.MethodHandleDesc;
import java.lang.constant.MethodTypeDesc;
import java.util.HashMap;
import java.util.List;
import java.util.Map;

/** Rewrites the calls of one method. Each hook gets one argument more: the call's site. */
final class Calls implements CodeTransform {
    static final String SCOPE = "java/util/concurrent/StructuredTaskScope", KEY = "java/lang/ScopedValue";

    /** A static method that takes the place of a method. */
    private record Hook(ClassDesc owner, String name) {}

    private static final Map<String, Hook> HOOKS = new HashMap<>();

    static {
        hooks(SCOPE, "ScopeHooks", "open", "fork", "isCancelled");
        hooks(SCOPE, "JoinHooks", "join", "close");
        hooks(SCOPE + "$Subtask", "SubtaskHooks", "state", "get", "exception");
        hooks(KEY, "ValueHooks", "where", "isBound", "orElse");
        hooks(KEY + "$Carrier", "ValueHooks", "where", "run", "call");
        hooks("java/lang/Thread", "InterruptHooks", "interrupted", "interrupt");
        HOOKS.put(KEY + ".get", new Hook(ClassDesc.of("recorder.ValueHooks"), "read"));
    }

    private final String source, method;
    private final Lambdas lambdas;
    private int line;
    private String lambda = "";     // the method that the lambda of the instruction before is for

    Calls(String source, String method, Lambdas lambdas) {
        this.source = source;
        this.method = method;
        this.lambdas = lambdas;
    }

    private static void hooks(String owner, String mine, String... names) {
        for (String name : names) HOOKS.put(owner + "." + name, new Hook(ClassDesc.of("recorder." + mine), name));
    }

    @Override
    public void accept(CodeBuilder to, CodeElement element) {
        switch (element) {
            case InvokeInstruction it -> call(to, it, HOOKS.get(it.owner().asInternalName() + "." + it.name().stringValue()));
            case InvokeDynamicInstruction it -> lambda(to, it);
            default -> to.with(element);
        }
        if (element instanceof LineNumber it) line = it.line();
        if (element instanceof Instruction) lambda = element instanceof InvokeDynamicInstruction it ? lambdas.method(it) : "";
    }

    private void call(CodeBuilder to, InvokeInstruction it, Hook hook) {
        if (hook == null) {
            to.with(it);
            return;
        }
        MethodTypeDesc type = it.typeSymbol();
        if (it.opcode() != Opcode.INVOKESTATIC) type = type.insertParameterTypes(0, it.owner().asSymbol());
        to.loadConstant(source + ":" + line + "|" + method + "|" + lambda);
        to.invokestatic(hook.owner, hook.name, type.insertParameterTypes(type.parameterCount(), ConstantDescs.CD_String));
    }

    /** A method reference such as Subtask::get becomes one to a hook without a site. */
    private static void lambda(CodeBuilder to, InvokeDynamicInstruction it) {
        List<ConstantDesc> args = it.bootstrapArgs().stream().map(Calls::handle).toList();
        if (args.equals(it.bootstrapArgs())) to.with(it);
        else to.invokedynamic(DynamicCallSiteDesc.of(it.bootstrapMethod(), it.name().stringValue(), it.typeSymbol(),
                args.toArray(ConstantDesc[]::new)));
    }

    private static ConstantDesc handle(ConstantDesc arg) {
        if (!(arg instanceof DirectMethodHandleDesc it)) return arg;
        String owner = it.owner().descriptorString();
        Hook hook = HOOKS.get(owner.substring(1, owner.length() - 1) + "." + it.methodName());
        if (hook == null) return arg;
        return MethodHandleDesc.ofMethod(DirectMethodHandleDesc.Kind.STATIC, ClassDesc.of("recorder.References"), hook.name, it.invocationType());
    }
}
