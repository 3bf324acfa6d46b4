--  The Finalize of an object fails where it is freed: the object is gone, and its block goes back (RM 7.6.1,
--  13.11.2).
with Ada.Finalization; use Ada.Finalization;
with Ada.Text_IO;      use Ada.Text_IO;
with Ada.Unchecked_Deallocation;
with Block_Pools;      use Block_Pools;

procedure Unfinalized is
   type T is new Controlled with record
      N : Integer := 0;
   end record;

   overriding procedure Finalize (X : in out T);

   procedure Finalize (X : in out T) is
   begin
      Put_Line ("F" & Integer'Image (X.N));
      if X.N = 1 then
         raise Constraint_Error;
      end if;
   end Finalize;
begin
   declare
      P : Block_Pool (16, 1);

      type Ref is access T with Storage_Pool => P;

      procedure Free is new Ada.Unchecked_Deallocation (T, Ref);

      A : Ref;
   begin
      A := new T;
      A.N := 1;
      begin
         Free (A);
      exception
         when Program_Error =>
            Put_Line (Boolean'Image (A = null));
      end;
      A := new T;
   end;
end Unfinalized;
