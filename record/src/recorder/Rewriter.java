package recorder;

import java.lang.classfile.Attributes;
import java.lang.classfile.ClassBuilder;
import java.lang.classfile.ClassElement;
import java.lang.classfile.ClassFile;
import java.lang.classfile.ClassHierarchyResolver;
import java.lang.classfile.ClassModel;
import java.lang.classfile.ClassTransform;
import java.lang.classfile.MethodModel;
import java.lang.classfile.MethodTransform;
import java.lang.instrument.ClassFileTransformer;
import java.nio.charset.StandardCharsets;
import java.security.ProtectionDomain;
import java.util.List;

/** Replaces calls of scopes, subtasks and scoped values in the application's classes by calls of the hooks. */
final class Rewriter implements ClassFileTransformer {
    private static final List<String> JDK = List.of("java/", "jdk/", "sun/", "com/sun/", "javax/", "recorder/");

    private final List<String> left;

    Rewriter(List<String> left) {
        this.left = left;
    }

    @Override
    public byte[] transform(Module module, ClassLoader loader, String name, Class<?> old, ProtectionDomain domain, byte[] bytes) {
        if (loader == null || name == null || isLeft(name) || !mentions(bytes)) return null;
        try {
            if (Class.forName("recorder.ScopeHooks", false, loader) != ScopeHooks.class) throw new ClassNotFoundException("another recorder");
            return rewritten(loader, name, bytes);
        } catch (Throwable e) {
            Agent.say("the class " + name.replace('/', '.') + " is left as it is, so what it does isn't recorded: " + e);
            return null;
        }
    }

    private boolean isLeft(String name) {
        for (String it : JDK) if (name.startsWith(it)) return true;
        for (String it : left) if (name.equals(it) || name.startsWith(it + "/") || name.startsWith(it + "$")) return true;
        return false;
    }

    /** Does the constant pool name one of the types? A search of bytes, since most classes name none. */
    private static boolean mentions(byte[] bytes) {
        String all = new String(bytes, StandardCharsets.ISO_8859_1);
        return all.contains(Calls.SCOPE) || all.contains(Calls.KEY) || all.contains("interrupt");
    }

    private static byte[] rewritten(ClassLoader loader, String name, byte[] bytes) {
        ClassHierarchyResolver resolver = ClassHierarchyResolver.defaultResolver().orElse(ClassHierarchyResolver.ofResourceParsing(loader));
        ClassFile file = ClassFile.of(ClassFile.ClassHierarchyResolverOption.of(resolver));
        ClassModel model = file.parse(bytes);
        String source = model.findAttribute(Attributes.sourceFile()).map(it -> it.sourceFile().stringValue()).orElse(name);
        Lambdas lambdas = new Lambdas(model);
        return file.transformClass(model, new ClassTransform() {
            @Override
            public void accept(ClassBuilder to, ClassElement element) {
                if (element instanceof MethodModel it)
                    to.transformMethod(it, MethodTransform.transformingCode(new Calls(source, Lambdas.outer(it), lambdas)));
                else to.with(element);
            }
        });
    }
}
