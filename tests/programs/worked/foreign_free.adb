--  An object that no allocator made is freed: the program is erroneous there (RM 13.11.2).
with Ada.Finalization; use Ada.Finalization;
with Ada.Text_IO;      use Ada.Text_IO;
with Ada.Unchecked_Deallocation;

procedure Foreign_Free is
   type T is new Controlled with record
      N : Integer := 0;
   end record;

   overriding procedure Adjust (X : in out T);
   overriding procedure Finalize (X : in out T);

   procedure Adjust (X : in out T) is
   begin
      Put_Line ("A" & Integer'Image (X.N));
   end Adjust;

   procedure Finalize (X : in out T) is
   begin
      Put_Line ("F" & Integer'Image (X.N));
   end Finalize;
begin
   declare
      type G is access all T;

      procedure Free is new Ada.Unchecked_Deallocation (T, G);

      X : aliased T;
      V : G;
   begin
      V := X'Access;
      Free (V);
   end;
end Foreign_Free;
