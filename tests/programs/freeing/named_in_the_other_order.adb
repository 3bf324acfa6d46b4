--  An instance whose actuals are given by name, the access type first (RM 12.3, 13.11.2).
with Ada.Finalization; use Ada.Finalization;
with Ada.Text_IO;      use Ada.Text_IO;
with Ada.Unchecked_Deallocation;

procedure Named_In_The_Other_Order is
   type T is new Controlled with record
      N : Integer := 4;
   end record;

   overriding procedure Finalize (X : in out T);

   procedure Finalize (X : in out T) is
   begin
      Put_Line ("F" & Integer'Image (X.N));
   end Finalize;
begin
   declare
      type Ref is access T;

      procedure Free is new Ada.Unchecked_Deallocation (Name => Ref, Object => T);

      A : Ref;
   begin
      A := new T;
      Free (A);
      Put_Line (Boolean'Image (A = null));
   end;
end Named_In_The_Other_Order;
