--  What a component designates is freed, where a call leads to the component (RM 13.11.2).
with Ada.Finalization; use Ada.Finalization;
with Ada.Text_IO;      use Ada.Text_IO;
with Ada.Unchecked_Deallocation;

procedure Freed is
   type T is new Controlled with record
      N : Integer := 0;
   end record;

   overriding procedure Finalize (X : in out T);

   procedure Finalize (X : in out T) is
   begin
      Put_Line ("F" & Integer'Image (X.N));
   end Finalize;
begin
   declare
      type Ref is access T;

      procedure Free is new Ada.Unchecked_Deallocation (T, Ref);

      type Box is record
         Kept : Ref;
      end record;

      type Link is access Box;

      B : Link;

      function Held (K : Integer) return Link is
      begin
         if K = 0 then
            return null;
         end if;
         return B;
      end Held;
   begin
      B := new Box;
      Held (1).Kept := new T;
      Held (1).Kept.N := 4;
      Free (Held (1).Kept);
      Put_Line (Boolean'Image (B.Kept = null));
      begin
         Free (Held (0).Kept);
      exception
         when Constraint_Error =>
            Put_Line ("none");
      end;
   end;
end Freed;
