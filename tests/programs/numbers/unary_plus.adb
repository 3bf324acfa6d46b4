--  A unary plus gives its operand, of either numeric type, and binds less tightly than a product (RM 4.4, 4.5.4).
with Ada.Text_IO;             use Ada.Text_IO;
with System.Storage_Elements; use System.Storage_Elements;

procedure Unary_Plus is
   N : Integer       := +3;
   S : Storage_Count := +8;
begin
   N := +N * 2;
   Put_Line (Integer'Image (N));
   N := +(-N) - (+1);
   Put_Line (Integer'Image (N));
   S := +S + (+1);
   Put_Line (Integer'Image (+Integer (S)));
   Put_Line (Integer'Image (+Integer'First));
end Unary_Plus;
